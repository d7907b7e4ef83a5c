//! The counters after each call, worked out by hand: a packet counts with its payload and 16 bytes.
use pursethistle::*;

fn receiver(first: u32, capacity: usize) -> Receiver {
    Receiver::new(Settings { start: 0, latency: 0, late_drop: true, first, capacity }).unwrap()
}

/// A packet of four bytes, so of 20 in the counters, and what is counted after it.
fn data(r: &mut Receiver, number: u32) -> [u64; 7] {
    let packet = DataPacket { number, message: 1, location: FIRST | LAST, stamp: 0, payload: b"four" };
    let _ = r.handle_data_packet(10, packet);
    let c = r.counters();
    assert_eq!((c.rx_ack2, c.rx_ack2_errors, c.rx_clock_adjustments), (0, 0, 0));
    packets(c)
}

/// The seven counters that packets and drop requests raise.
fn packets(c: &Counters) -> [u64; 7] {
    [c.rx_data, c.rx_bytes, c.rx_unique_data, c.rx_unique_bytes, c.rx_retransmit_data, c.rx_dropped_data, c.rx_dropped_bytes]
}

#[test]
fn fresh_ones_are_zero() {
    assert_eq!(*receiver(0, 1).counters(), Counters::default());
}

#[test]
fn refusals_7_to_10_count() {
    let mut r = receiver(0, 1);
    assert_eq!(data(&mut r, 0), [1, 20, 1, 20, 0, 0, 0]); // got
    assert_eq!(data(&mut r, 0), [2, 40, 1, 20, 0, 0, 0]); // 10
    assert_eq!(data(&mut r, 1), [3, 60, 1, 20, 0, 1, 20]); // 7
    assert_eq!(data(&mut r, 2), [4, 80, 1, 20, 0, 2, 40]); // 8
    assert!(matches!(r.pop_next_message(10, &mut [0; 4]), Ok(MessageAnswer::Message { .. })));
    assert_eq!(data(&mut r, 0), [5, 100, 1, 20, 0, 3, 60]); // 9
}

#[test]
fn refusals_3_to_6_count_nothing() {
    let mut r = receiver(0, 1);
    let packet = DataPacket { number: 0, message: 1, location: 0, stamp: 0, payload: &[0; 1456] };
    assert_eq!(r.pop_next_message(5, &mut []), Ok(MessageAnswer::Nothing));
    assert_eq!(r.handle_data_packet(-1, packet), Err(Refusal::ClockRange));
    assert_eq!(r.handle_data_packet(4, packet), Err(Refusal::ClockBack));
    assert_eq!(r.handle_data_packet(5, DataPacket { location: 4, ..packet }), Err(Refusal::BadNumber));
    assert_eq!(r.handle_data_packet(5, DataPacket { payload: &[0; 1457], ..packet }), Err(Refusal::PayloadLong));
    assert_eq!(r.handle_ack2_packet(4, 1), Err(Refusal::ClockBack));
    assert_eq!(r.handle_drop_request(0, u32::MAX), Err(Refusal::BadNumber));
    assert_eq!(r.synchronize_clock(4, 0), Err(Refusal::ClockBack));
    assert_eq!(*r.counters(), Counters::default());
}

#[test]
fn losses_recoveries_and_drop_requests() {
    let mut r = receiver(2147483646, 8);
    assert_eq!(data(&mut r, 2), [1, 20, 1, 20, 0, 0, 0]); // loss of 2147483646 to 1
    assert_eq!(data(&mut r, 0), [2, 40, 1, 20, 1, 0, 0]); // recovered
    assert_eq!(r.handle_drop_request(2147483646, 1), Ok(3));
    assert_eq!(packets(r.counters()), [2, 40, 1, 20, 1, 3, 0]); // no bytes
    assert_eq!(data(&mut r, 1), [3, 60, 1, 20, 1, 3, 0]); // given up, so 10
    assert_eq!(r.handle_drop_request(2147483646, 1), Ok(0));
    assert_eq!(r.clear(), Ok(()));
    assert_eq!(packets(r.counters()), [3, 60, 1, 20, 1, 3, 0]); // a clear keeps them
}

#[test]
fn ack2s() {
    let mut r = receiver(0, 2);
    assert_eq!(r.handle_ack2_packet(0, 1), Ok(None));
    let _ = r.handle_data_packet(0, DataPacket { number: 0, message: 1, location: 3, stamp: 0, payload: b"" });
    assert_eq!(r.on_full_ack_event(0).unwrap().map(|ack| ack.number), Some(1));
    // mean (7 x 10,000 + 0) / 8, variance (3 x 1,000 + 8,750) / 4
    assert_eq!(r.handle_ack2_packet(0, 1), Ok(Some(Rtt { mean: 8_750, variance: 2_937 })));
    let counters = Counters {
        rx_data: 1,
        rx_bytes: 16,
        rx_unique_data: 1,
        rx_unique_bytes: 16,
        rx_ack2: 2,
        rx_ack2_errors: 1,
        ..Counters::default()
    };
    assert_eq!(*r.counters(), counters);
}

#[test]
fn clock_adjustments() {
    let mut r = receiver(0, 1);
    // The first drift is not counted; the thousandth sample behind it is.
    for _ in 0..1_000 {
        assert_eq!(r.synchronize_clock(0, 0), Ok(ClockAnswer::Nothing));
    }
    assert_eq!(*r.counters(), Counters::default());
    assert_eq!(r.synchronize_clock(0, 0), Ok(ClockAnswer::Adjusted { mean: 0, deviation: 0 }));
    assert_eq!(*r.counters(), Counters { rx_clock_adjustments: 1, ..Counters::default() });
}
