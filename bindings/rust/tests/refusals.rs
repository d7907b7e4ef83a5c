//! Every refusal that a `Receiver` can meet, on both sides of its edge, and that it changes nothing. 1, 2, 13 and 14 are in raw.rs: its own head
//! and areas are never damaged or short, 13 comes after 2^32 ACKs, 14 after 2^29 adjustments.
use pursethistle::*;

const SETTINGS: Settings = Settings { start: 10, latency: 0, late_drop: true, first: 0, capacity: 4 };

fn packet(number: u32) -> DataPacket<'static> {
    DataPacket { number, message: 0, location: FIRST | LAST, stamp: 0, payload: b"data" }
}

fn got(lrsn: u32) -> Result<DataPacketAction, Refusal> {
    Ok(DataPacketAction::Received { lrsn, recovered: false })
}

/// The refusal of each call that takes a reading.
fn timed(r: &mut Receiver, now: i64) -> [Option<Refusal>; 6] {
    [
        r.handle_data_packet(now, packet(0)).err(),
        r.pop_next_message(now, &mut [0; 8]).err(),
        r.on_nak_event(now, &mut [0; 8]).err(),
        r.on_full_ack_event(now).err(),
        r.handle_ack2_packet(now, 1).err(),
        r.synchronize_clock(now, 0).err(),
    ]
}

#[test]
fn clock_range_is_3() {
    let mut r = Receiver::new(SETTINGS).unwrap();
    for now in [-1, i64::MIN, 1 << 60, i64::MAX] {
        assert_eq!(timed(&mut r, now), [Some(Refusal::ClockRange); 6]);
    }
    assert_eq!(timed(&mut r, (1 << 60) - 1), [None; 6]);
}

#[test]
fn clock_back_is_4() {
    let mut r = Receiver::new(SETTINGS).unwrap();
    assert_eq!(timed(&mut r, 9), [Some(Refusal::ClockBack); 6]);
    assert_eq!(timed(&mut r, 10), [None; 6]);
    // A refused call does not move the latest reading, an unrefused one does.
    assert_eq!(r.handle_data_packet(50, packet(9)), Err(Refusal::PacketTooEarly { room: 4, need: 9 }));
    assert_eq!(r.pop_next_message(20, &mut []), Ok(MessageAnswer::Nothing));
    assert_eq!(r.pop_next_message(19, &mut []), Err(Refusal::ClockBack));
}

#[test]
fn bad_number_is_5() {
    let mut r = Receiver::new(SETTINGS).unwrap();
    for bad in [
        DataPacket { number: 1 << 31, ..packet(0) },
        DataPacket { message: 1 << 26, ..packet(0) },
        DataPacket { location: 4, ..packet(0) },
        DataPacket { number: u32::MAX, payload: &[0; 1457], ..packet(0) },
    ] {
        assert_eq!(r.handle_data_packet(10, bad), Err(Refusal::BadNumber));
    }
    assert_eq!(r.handle_drop_request(1 << 31, 0), Err(Refusal::BadNumber));
    assert_eq!(r.handle_drop_request(0, 1 << 31), Err(Refusal::BadNumber));
    assert_eq!(r.show(1 << 31), Err(Refusal::BadNumber));
    let last = DataPacket { message: (1 << 26) - 1, ..packet(0) };
    assert_eq!(r.handle_data_packet(10, last), got(1));
    assert_eq!(r.handle_drop_request(0, (1 << 31) - 1), Ok(0));
    assert_eq!(r.show((1 << 31) - 1), Ok(None));
}

#[test]
fn payload_long_is_6() {
    let mut r = Receiver::new(SETTINGS).unwrap();
    let long = [7; 1457];
    assert_eq!(r.handle_data_packet(10, DataPacket { payload: &long, ..packet(0) }), Err(Refusal::PayloadLong));
    assert_eq!(r.handle_data_packet(10, DataPacket { payload: &long[1..], ..packet(0) }), got(1));
    assert_eq!(r.show(0), Ok(Some(&long[1..])));
}

#[test]
fn buffer_full_is_7_and_packet_too_early_8() {
    let mut r = Receiver::new(SETTINGS).unwrap();
    assert_eq!(r.handle_data_packet(10, packet(0)), got(1));
    // Room 3: number 4 needs 4, number 3 fits.
    assert_eq!(r.handle_data_packet(10, packet(4)), Err(Refusal::PacketTooEarly { room: 3, need: 4 }));
    let loss = DataPacketAction::ReceivedWithLoss { first: 1, last: 2 };
    assert_eq!(r.handle_data_packet(10, packet(3)), Ok(loss));
    assert_eq!(r.handle_data_packet(10, packet(4)), Err(Refusal::BufferFull));
    assert_eq!(r.handle_data_packet(10, packet(5)), Err(Refusal::PacketTooEarly { room: 0, need: 2 }));
    assert_eq!((r.room(), r.on_full_ack_event(10)), (Ok(0), Ok(None)));
}

#[test]
fn packet_too_late_is_9_and_discarded_duplicate_10() {
    let mut r = Receiver::new(SETTINGS).unwrap();
    assert_eq!(r.handle_data_packet(10, packet(0)), got(1));
    let other = DataPacket { payload: b"other", ..packet(0) };
    assert_eq!(r.handle_data_packet(10, other), Err(Refusal::DiscardedDuplicate));
    assert_eq!(r.show(0), Ok(Some(&b"data"[..])));
    let mut output = [0; 4];
    let message = MessageAnswer::Message { time: 10, payload: b"data", packets: 1 };
    assert_eq!(r.pop_next_message(10, &mut output), Ok(message));
    assert_eq!(r.handle_data_packet(10, packet(0)), Err(Refusal::PacketTooLate));
    // The last number of the circle is behind the first.
    assert_eq!(r.handle_data_packet(10, packet(2147483647)), Err(Refusal::PacketTooLate));
}

#[test]
fn out_short_is_11() {
    let mut r = Receiver::new(SETTINGS).unwrap();
    assert_eq!(r.handle_data_packet(10, packet(0)), got(1));
    let mut output = *b"....";
    assert_eq!(r.pop_next_message(10, &mut output[..3]), Err(Refusal::OutShort));
    assert_eq!(&output, b"....");
    let message = MessageAnswer::Message { time: 10, payload: b"data", packets: 1 };
    assert_eq!(r.pop_next_message(10, &mut output), Ok(message));
}

#[test]
fn list_short_is_12() {
    let mut r = Receiver::new(SETTINGS).unwrap();
    let loss = DataPacketAction::ReceivedWithLoss { first: 0, last: 1 };
    assert_eq!(r.handle_data_packet(10, packet(2)), Ok(loss));
    let mut words = [9; 2];
    // Nothing is due: no word is needed.
    assert_eq!(r.on_nak_event(20_010, &mut []), Ok(None));
    assert_eq!(r.on_nak_event(20_011, &mut words[..1]), Err(Refusal::ListShort));
    assert_eq!(words, [9; 2]);
    assert_eq!(r.on_nak_event(20_011, &mut words), Ok(Some(&[LOSS_RUN, 1][..])));
}

#[test]
fn bad_setting_is_15() {
    for bad in [
        Settings { start: -1, ..SETTINGS },
        Settings { start: 1 << 60, ..SETTINGS },
        Settings { latency: 65_535_001, ..SETTINGS },
        Settings { first: 1 << 31, ..SETTINGS },
        Settings { capacity: 0, ..SETTINGS },
        Settings { capacity: 8193, ..SETTINGS },
        Settings { capacity: usize::MAX, ..SETTINGS },
    ] {
        assert_eq!(Receiver::new(bad).unwrap_err(), Refusal::BadSetting, "{bad:?}");
    }
    let last = Settings { start: (1 << 60) - 1, latency: 65_535_000, late_drop: false, first: 2147483647, capacity: 8192 };
    assert_eq!(Receiver::new(last).unwrap().room(), Ok(8192));
}
