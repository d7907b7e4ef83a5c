//! The counters.
use crate::raw;

/// What a receiver has counted, each number mod 2^64. A packet counts with its payload and 16 bytes.
#[repr(C)]
#[derive(Debug, Clone, Copy, Default, PartialEq, Eq)]
pub struct Counters {
    /// Packets taken, and those refused 7 to 10.
    pub rx_data: u64,
    /// Their bytes.
    pub rx_bytes: u64,
    /// Packets taken that were not recovered.
    pub rx_unique_data: u64,
    /// Their bytes.
    pub rx_unique_bytes: u64,
    /// Packets recovered.
    pub rx_retransmit_data: u64,
    /// Packets refused 7 to 9, and those given up by drop requests.
    pub rx_dropped_data: u64,
    /// Bytes of those refused 7 to 9.
    pub rx_dropped_bytes: u64,
    /// ACK2s, of a known ACK or not.
    pub rx_ack2: u64,
    /// ACK2s of a known ACK: the Rust that was ported counts so, and the rules follow it.
    pub rx_ack2_errors: u64,
    /// Adjustments of the clock by a thousand samples.
    pub rx_clock_adjustments: u64,
}

const _: () = assert!(std::mem::size_of::<Counters>() == std::mem::size_of::<raw::Counts>());

impl Counters {
    /// Each counter with its name, in order.
    pub fn named(&self) -> [(&'static str, u64); raw::COUNTERS] {
        [
            ("rx_data", self.rx_data),
            ("rx_bytes", self.rx_bytes),
            ("rx_unique_data", self.rx_unique_data),
            ("rx_unique_bytes", self.rx_unique_bytes),
            ("rx_retransmit_data", self.rx_retransmit_data),
            ("rx_dropped_data", self.rx_dropped_data),
            ("rx_dropped_bytes", self.rx_dropped_bytes),
            ("rx_ack2", self.rx_ack2),
            ("rx_ack2_errors", self.rx_ack2_errors),
            ("rx_clock_adjustments", self.rx_clock_adjustments),
        ]
    }

    pub(crate) fn cells(&mut self) -> &mut raw::Counts {
        // Sound: `repr(C)` lays ten u64 fields out as an array of ten u64.
        unsafe { &mut *std::ptr::from_mut(self).cast() }
    }
}

#[cfg(test)]
mod tests {
    use super::*;

    #[test]
    fn cells_are_the_fields_in_order() {
        let mut counters = Counters { rx_data: 1, rx_dropped_bytes: 7, rx_clock_adjustments: 10, ..Counters::default() };
        assert_eq!(counters.cells(), &[1, 0, 0, 0, 0, 0, 7, 0, 0, 10]);
        counters.cells()[4] = 5;
        assert_eq!(counters.rx_retransmit_data, 5);
    }

    #[test]
    fn names_are_those_of_the_fields() {
        let mut counters = Counters::default();
        *counters.cells() = [1, 2, 3, 4, 5, 6, 7, 8, 9, 10];
        let fields = format!("{counters:?}");
        let named: Vec<String> = counters.named().iter().map(|(name, count)| format!("{name}: {count}")).collect();
        assert_eq!(fields, format!("Counters {{ {} }}", named.join(", ")));
        assert!(fields.starts_with("Counters { rx_data: 1, rx_bytes: 2, "));
    }
}
