// Stand-in for the socket's statistics: the fields that receiver/mod.rs raises. The ten of reading A65 are printed in its order; the
// others belong to decryption, which 01 leaves out.
#[derive(Default)]
pub struct SocketStatistics {
    pub rx_data: u64,
    pub rx_bytes: u64,
    pub rx_unique_data: u64,
    pub rx_unique_bytes: u64,
    pub rx_retransmit_data: u64,
    pub rx_dropped_data: u64,
    pub rx_dropped_bytes: u64,
    pub rx_ack2: u64,
    pub rx_ack2_errors: u64,
    pub rx_clock_adjustments: u64,
    pub rx_decrypted_data: u64,
    pub rx_decrypt_errors: u64,
    pub rx_decrypt_error_bytes: u64,
}

impl SocketStatistics {
    pub fn ten(&self) -> [(&'static str, u64); 10] {
        [
            ("rx_data", self.rx_data),
            ("rx_bytes", self.rx_bytes),
            ("rx_unique_data", self.rx_unique_data),
            ("rx_unique_bytes", self.rx_unique_bytes),
            ("rx_retransmit_data", self.rx_retransmit_data),
            ("rx_dropped_data", self.rx_dropped_data),
            ("rx_dropped_bytes", self.rx_dropped_bytes),
            ("rx_ack2", self.rx_ack2),
            ("rx_ack2_errors", self.rx_ack2_errors),
            ("rx_clock_adjustments", self.rx_clock_adjustments),
        ]
    }

    pub fn line(&self) -> String {
        self.ten().iter().fold("counters".to_string(), |line, (name, value)| format!("{line} {name}={value}"))
    }
}
