//! The rules' worked example and both sides of each edge (docs/01-scope.md, P1 to P8), and the wrap with loss and recovery. What each call
//! must answer was worked out by hand from the rules.
use pursethistle::*;

fn receiver(latency: u32, late_drop: bool, first: u32, capacity: usize) -> Receiver {
    Receiver::new(Settings { start: 0, latency, late_drop, first, capacity }).unwrap()
}

/// A message of one packet.
fn whole(number: u32, stamp: u32, payload: &[u8]) -> DataPacket<'_> {
    DataPacket { number, message: 0, location: FIRST | LAST, stamp, payload }
}

fn got(lrsn: u32) -> Result<DataPacketAction, Refusal> {
    Ok(DataPacketAction::Received { lrsn, recovered: false })
}

fn recovered(lrsn: u32) -> Result<DataPacketAction, Refusal> {
    Ok(DataPacketAction::Received { lrsn, recovered: true })
}

fn loss(first: u32, last: u32) -> Result<DataPacketAction, Refusal> {
    Ok(DataPacketAction::ReceivedWithLoss { first, last })
}

#[test]
fn p1_the_worked_example() {
    let mut r = receiver(0, true, 2147483646, 4);
    assert_eq!(r.handle_data_packet(1000, whole(2147483646, 0, b"0123456789")), got(2147483647));
    assert_eq!(r.handle_data_packet(2000, whole(0, 1000, b"abcdefghij")), loss(2147483647, 2147483647));
    assert_eq!(r.handle_data_packet(3000, whole(2147483647, 500, b"ABCDEFGHIJ")), recovered(1));
    assert_eq!(r.handle_data_packet(3100, whole(0, 1000, b"abcdefghij")), Err(Refusal::DiscardedDuplicate));
    let mut output = [0; 10];
    let first = MessageAnswer::Message { time: 0, payload: b"0123456789", packets: 1 };
    assert_eq!(r.pop_next_message(4000, &mut output), Ok(first));
    // The end line: seqno0 2147483647, held 2.
    assert_eq!(r.room(), Ok(2));
    assert_eq!(r.show(2147483646), Ok(None));
    assert_eq!(r.show(2147483647), Ok(Some(&b"ABCDEFGHIJ"[..])));
    assert_eq!(r.show(0), Ok(Some(&b"abcdefghij"[..])));
}

#[test]
fn p2_the_round_trip() {
    let mut r = receiver(0, false, 0, 2);
    assert_eq!(r.handle_data_packet(0, whole(0, 0, b"")), got(1));
    let ack = FullAck {
        number: 1,
        lrsn: 1,
        rtt: Rtt { mean: 10_000, variance: 1_000 },
        room: 1,
        packet_receive_rate: None,
        estimated_link_capacity: None,
        data_receive_rate: None,
    };
    assert_eq!(r.on_full_ack_event(0), Ok(Some(ack)));
    assert_eq!(r.handle_ack2_packet(18_000, 1), Ok(Some(Rtt { mean: 11_000, variance: 2_500 })));
    assert_eq!(r.handle_ack2_packet(18_000, 2), Ok(None));
    assert_eq!(r.on_full_ack_event(18_000), Ok(None));
}

#[test]
fn p3_to_p6_when_a_loss_is_reported() {
    let mut r = receiver(0, false, 0, 2);
    let mut words = [0; 2];
    assert_eq!(r.handle_data_packet(0, whole(1, 0, b"")), loss(0, 0));
    assert_eq!(r.on_nak_event(20_000, &mut words), Ok(None));
    assert_eq!(r.on_nak_event(20_001, &mut words), Ok(Some(&[0][..])));
    assert_eq!(r.on_nak_event(50_001, &mut words), Ok(None));
    assert_eq!(r.on_nak_event(50_002, &mut words), Ok(Some(&[0][..])));
}

#[test]
fn p7_and_p8_when_a_message_is_late() {
    let mut r = receiver(100_000, true, 0, 1);
    let packet = DataPacket { location: FIRST, ..whole(0, 100_000, b"half") };
    assert_eq!(r.handle_data_packet(100_000, packet), got(1));
    let mut output = [0; 4];
    assert_eq!(r.pop_next_message(204_999, &mut output), Ok(MessageAnswer::Nothing));
    assert_eq!(r.pop_next_message(205_000, &mut output), Ok(MessageAnswer::Late { first: 0, end: 1, delay: 5_000 }));
    assert_eq!(output, [0; 4]);
    assert_eq!(r.room(), Ok(1));
}

/// From 2^31 - 3 onward: 2147483646 to 0 are lost, reported in one run over the wrap, then recovered from behind.
#[test]
fn loss_and_recovery_at_the_wrap() {
    let mut r = receiver(1_000, false, 2147483645, 8);
    let (mut words, mut output) = ([0; 8], [0; 8]);
    assert_eq!(r.handle_data_packet(0, whole(2147483645, 0, b"a")), got(2147483646));
    assert_eq!(r.handle_data_packet(400, whole(1, 400, b"e")), loss(2147483646, 0));
    assert_eq!(r.room(), Ok(3));
    assert_eq!(r.on_nak_event(20_400, &mut words), Ok(None));
    assert_eq!(r.on_nak_event(20_401, &mut words), Ok(Some(&[LOSS_RUN | 2147483646, 0][..])));
    // 0 comes, so the two before it are a run that ends at the wrap; then 2147483646, which leaves one.
    assert_eq!(r.handle_data_packet(21_000, whole(0, 300, b"d")), recovered(2147483646));
    assert_eq!(r.on_nak_event(50_401, &mut words), Ok(None));
    assert_eq!(r.on_nak_event(50_402, &mut words), Ok(Some(&[LOSS_RUN | 2147483646, 2147483647][..])));
    assert_eq!(r.handle_data_packet(50_500, whole(2147483646, 100, b"b")), recovered(2147483647));
    assert_eq!(r.on_nak_event(90_403, &mut words), Ok(Some(&[2147483647][..])));
    assert_eq!(r.handle_data_packet(90_500, whole(2147483647, 200, b"c")), recovered(2));
    assert_eq!(r.handle_data_packet(90_600, whole(2, 500, b"f")), got(3));
    for (i, payload) in [b"a", b"b", b"c", b"d", b"e", b"f"].into_iter().enumerate() {
        let message = MessageAnswer::Message { time: 100 * i as i64, payload, packets: 1 };
        assert_eq!(r.pop_next_message(91_500, &mut output), Ok(message));
    }
    assert_eq!(r.pop_next_message(91_500, &mut output), Ok(MessageAnswer::Nothing));
    assert_eq!(r.room(), Ok(8));
    // All that is behind the window is too late, on both sides of the wrap.
    for number in [2147483645, 2147483647, 0, 2] {
        assert_eq!(r.handle_data_packet(91_500, whole(number, 0, b"")), Err(Refusal::PacketTooLate));
    }
}

/// A message of three packets across the wrap is released whole.
#[test]
fn a_message_across_the_wrap() {
    let mut r = receiver(500, true, 2147483646, 4);
    let part = |number, location, stamp, payload| DataPacket { number, message: 7, location, stamp, payload };
    assert_eq!(r.handle_data_packet(0, part(2147483646, FIRST, 10, b"one ")), got(2147483647));
    assert_eq!(r.handle_data_packet(0, part(2147483647, 0, 20, b"two ")), got(0));
    assert_eq!(r.handle_data_packet(0, part(0, LAST, 30, b"three")), got(1));
    let mut output = [b'.'; 16];
    assert_eq!(r.pop_next_message(509, &mut output), Ok(MessageAnswer::Nothing));
    let message = MessageAnswer::Message { time: 10, payload: b"one two three", packets: 3 };
    assert_eq!(r.pop_next_message(510, &mut output), Ok(message));
    assert_eq!(&output, b"one two three...");
}

/// The largest window, full, from below the wrap: each message comes out of its own place.
#[test]
fn the_largest_window() {
    let first = (1 << 31) - 4_000;
    let mut r = receiver(0, false, first, 8192);
    let number = |i: u32| (first + i) % (1 << 31);
    for i in 0..8192 {
        assert!(r.handle_data_packet(0, whole(number(i), 0, &i.to_be_bytes())).is_ok());
    }
    assert_eq!(r.handle_data_packet(0, whole(number(8192), 0, b"")), Err(Refusal::BufferFull));
    assert_eq!(r.show(number(8191)), Ok(Some(&8191u32.to_be_bytes()[..])));
    let mut output = [0; 4];
    for i in 0..8192u32 {
        let message = MessageAnswer::Message { time: 0, payload: &i.to_be_bytes(), packets: 1 };
        assert_eq!(r.pop_next_message(0, &mut output), Ok(message));
    }
    assert_eq!(r.room(), Ok(8192));
}

/// A drop request gives up what is lost only, and what it gave up is a repeat when it comes.
#[test]
fn a_drop_request_over_the_wrap() {
    let mut r = receiver(0, false, 2147483646, 8);
    assert_eq!(r.handle_data_packet(0, whole(1, 0, b"")), loss(2147483646, 0));
    assert_eq!(r.handle_data_packet(0, whole(2147483647, 0, b"kept")), recovered(2147483646));
    assert_eq!(r.handle_drop_request(2147483646, 0), Ok(2));
    assert_eq!(r.handle_drop_request(2147483646, 0), Ok(0));
    assert_eq!(r.handle_data_packet(0, whole(0, 0, b"")), Err(Refusal::DiscardedDuplicate));
    assert_eq!(r.show(0), Ok(None));
    assert_eq!(r.show(2147483647), Ok(Some(&b"kept"[..])));
}

/// A light ACK is due 64 packets after the last one; the rates are known after 17 appends and 16 pairs.
#[test]
fn light_acks_and_rates() {
    let mut r = receiver(0, false, 0, 512);
    for number in 0..256 {
        let taken = r.handle_data_packet(100 * i64::from(number), whole(number, 0, b"1234567890"));
        let lrsn = number + 1;
        let light = Ok(DataPacketAction::ReceivedWithLightAck { lrsn, recovered: false });
        assert_eq!(taken, if lrsn % 64 == 0 { light } else { got(lrsn) });
    }
    // A packet of 10 bytes each 100 microseconds.
    let ack = r.on_full_ack_event(25_500).unwrap().unwrap();
    assert_eq!((ack.number, ack.lrsn, ack.room), (1, 256, 256));
    assert_eq!(ack.packet_receive_rate, Some(10_000));
    assert_eq!(ack.estimated_link_capacity, Some(100_000));
    assert_eq!(ack.data_receive_rate, Some(10_000));
}

/// The first drift adjusts at once; then a thousand samples adjust, or are unsteady with their variance.
#[test]
fn the_clock() {
    let mut r = receiver(0, false, 0, 1);
    assert_eq!(r.synchronize_clock(0, 0), Ok(ClockAnswer::Nothing));
    let mut sample = |now, low: u32, high: u32| {
        for _ in 0..499 {
            assert_eq!(r.synchronize_clock(now, low), Ok(ClockAnswer::Nothing));
            assert_eq!(r.synchronize_clock(now, high), Ok(ClockAnswer::Nothing));
        }
        assert_eq!(r.synchronize_clock(now, low), Ok(ClockAnswer::Nothing));
        r.synchronize_clock(now, high)
    };
    // Drifts of 10,011 and 0 by turns: mean and deviation 5,005.5, variance 25,055,030.25.
    let Ok(ClockAnswer::Unsteady { deviation: 5_005, variance }) = sample(10_011, 0, 10_011) else { panic!("not unsteady") };
    assert!((variance - 25_055_030.25).abs() < 0.01, "{variance}");
    // Drifts of 9,999 and 0: mean and deviation 4,999.5, which is steady. The unsteady ones have left the clock as it was.
    assert_eq!(sample(20_000, 10_001, 20_000), Ok(ClockAnswer::Adjusted { mean: 4_999, deviation: 4_999 }));
}

/// Clear forgets what is held: the place is the next expected one again.
#[test]
fn clear_forgets() {
    let mut r = receiver(0, false, 5, 4);
    assert_eq!(r.handle_data_packet(0, whole(5, 0, b"five")), got(6));
    assert_eq!(r.clear(), Ok(()));
    assert_eq!((r.room(), r.show(5)), (Ok(4), Ok(None)));
    assert_eq!(r.pop_next_message(9, &mut []), Ok(MessageAnswer::Nothing));
}
