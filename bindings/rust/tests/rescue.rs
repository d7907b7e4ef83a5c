//! What a late drop discards can be rescued, byte for byte, until the next packet is taken.
use pursethistle::*;
use std::collections::BTreeMap;

const NUMBERS: u32 = 1 << 31;

fn receiver(latency: u32, first: u32, capacity: usize) -> Receiver {
    Receiver::new(Settings { start: 0, latency, late_drop: true, first, capacity }).unwrap()
}

fn whole(number: u32, stamp: u32, payload: &[u8]) -> DataPacket<'_> {
    DataPacket { number, message: 0, location: FIRST | LAST, stamp, payload }
}

fn late(first: u32, end: u32, delay: i32) -> Result<MessageAnswer<'static>, Refusal> {
    Ok(MessageAnswer::Late { first, end, delay })
}

fn rescued(r: &Receiver, first: u32, end: u32) -> Vec<(u32, &[u8])> {
    r.rescued(first, end).collect()
}

/// 2147483646 and 0 are lost; 2147483647 and 1 had come. They are there over the wrap, through further pops and other
/// calls, and through a packet that is refused; not after one that is taken.
#[test]
fn over_the_wrap_until_the_next_packet() {
    let mut r = receiver(1_000, 2147483646, 4);
    let mut output = [0; 16];
    assert!(r.handle_data_packet(0, whole(2147483647, 0, b"one")).is_ok());
    assert!(r.handle_data_packet(9, whole(1, 0, b"three")).is_ok());
    assert_eq!(rescued(&r, 2147483646, 2), []);
    assert_eq!(r.pop_next_message(5_999, &mut output), Ok(MessageAnswer::Nothing));
    assert_eq!(r.pop_next_message(6_000, &mut output), late(2147483646, 2, 5_000));
    let both = [(2147483647, &b"one"[..]), (1, &b"three"[..])];
    assert_eq!(rescued(&r, 2147483646, 2), both);
    assert_eq!(r.show(1), Ok(None));
    assert_eq!(r.pop_next_message(6_000, &mut output), Ok(MessageAnswer::Nothing));
    assert_eq!(r.on_nak_event(6_000, &mut [0; 4]), Ok(None));
    assert_eq!(r.handle_drop_request(2147483646, 2), Ok(0));
    assert_eq!(r.handle_data_packet(6_000, whole(0, 0, b"zero")), Err(Refusal::PacketTooLate));
    assert_eq!(rescued(&r, 2147483646, 2), both);
    assert_eq!(rescued(&r, 1, 2), both[1..]);
    // Whatever is asked for, never more than was held.
    assert_eq!(rescued(&r, 2147483646, 2147483645), both);
    assert_eq!(rescued(&r, u32::MAX, 2), both);
    assert_eq!(rescued(&r, 2, 2147483646), []);
    assert!(r.handle_data_packet(6_001, whole(2, 6_001, b"two")).is_ok());
    assert_eq!(rescued(&r, 2147483646, 2), []);
}

/// Two late drops with no packet between them: each range is there after the second.
#[test]
fn two_late_drops() {
    let mut r = receiver(1_000, 0, 8);
    let mut output = [0; 16];
    assert!(r.handle_data_packet(0, whole(1, 0, b"b")).is_ok());
    assert!(r.handle_data_packet(20, whole(3, 20, b"d")).is_ok());
    assert_eq!(r.pop_next_message(6_000, &mut output), late(0, 2, 5_000));
    assert_eq!(r.pop_next_message(6_020, &mut output), late(2, 4, 5_000));
    assert_eq!(rescued(&r, 0, 2), [(1, &b"b"[..])]);
    assert_eq!(rescued(&r, 2, 4), [(3, &b"d"[..])]);
    assert_eq!(r.clear(), Ok(()));
    assert_eq!(rescued(&r, 0, 4), []);
}

/// Of a message that is not whole, the parts that came.
#[test]
fn parts_of_a_message() {
    let mut r = receiver(1_000, 10, 4);
    let part = |number, location, payload| DataPacket { number, message: 3, location, stamp: 0, payload };
    assert!(r.handle_data_packet(0, part(10, FIRST, b"one ")).is_ok());
    assert!(r.handle_data_packet(0, part(12, LAST, b"three")).is_ok());
    assert_eq!(r.pop_next_message(6_000, &mut [0; 64]), late(10, 13, 5_000));
    assert_eq!(rescued(&r, 10, 13), [(10, &b"one "[..]), (12, &b"three"[..])]);
}

/// In C's way: a copy of the head from before the pop, and show with it.
#[test]
fn with_a_head_of_ones_own() {
    use raw::*;
    let (mut head, mut answer) = ([0; HEAD_WORDS], [0; ANSWER_CELLS]);
    let (mut slots, mut payloads) = ([0; 4 * SLOT_WORDS], [0; 4 * PAYLOAD_BYTES]);
    assert_eq!(new(&mut head, &mut answer, 0, 1_000, true, 7, 4), 0);
    assert_eq!(handle_data_packet(&mut head, &mut answer, &mut slots, &mut payloads, 0, 8, 0, 3, 0, b"eight"), 0);
    let before = head;
    assert_eq!(pop_next_message(&mut head, &mut answer, &slots, &payloads, &mut [], 6_000), 0);
    assert_eq!(answer[..4], [word::LATE, 7, 9, 5_000]);
    assert_eq!(show(&head, &mut answer, &slots, &payloads, 8), 0);
    assert_eq!(answer[0], word::OTHER);
    assert_eq!(show(&before, &mut answer, &slots, &payloads, 8), 0);
    assert_eq!(answer[0], word::RECEIVED);
    assert_eq!(&payloads[answer[1] as usize..][..answer[2] as usize], b"eight");
    assert_eq!(show(&before, &mut answer, &slots, &payloads, 7), 0);
    assert_eq!(answer[0], word::OTHER);
}

/// 200,000 packets, a fifth of them lost, in a small window over the wrap: every packet that was taken is released or
/// rescued, once and with its bytes.
#[test]
fn every_packet_taken_comes_out() {
    let first = NUMBERS - 100_000;
    let mut r = receiver(3_000, first, 16);
    let mut taken: BTreeMap<u32, Vec<u8>> = BTreeMap::new();
    let (mut released, mut saved, mut next) = (0, 0, first);
    let mut output = [0; 16 * 1456];
    let mut seed = 1u32;
    let mut random = |below: u32| {
        seed = seed.wrapping_mul(1_664_525).wrapping_add(1_013_904_223);
        (seed >> 8) % below
    };
    for i in 0..200_000 {
        let now = 1_000 * i64::from(i);
        // Mostly the newest packet, now and then an older one that may be lost.
        let back = if random(4) == 0 { random(6) } else { 0 };
        if random(5) > 0 && i >= back {
            let packet = i - back;
            let number = (first + packet) % NUMBERS;
            let payload: Vec<u8> = packet.to_be_bytes().repeat(1 + random(20) as usize);
            if r.handle_data_packet(now, whole(number, 1_000 * packet, &payload)).is_ok() {
                taken.insert(number, payload);
            }
        }
        while random(3) > 0 {
            match r.pop_next_message(now, &mut output).unwrap() {
                MessageAnswer::Nothing => break,
                MessageAnswer::Message { payload, .. } => {
                    assert_eq!(taken.remove(&next).as_deref(), Some(payload));
                    (next, released) = ((next + 1) % NUMBERS, released + 1);
                }
                MessageAnswer::Late { first, end, .. } => {
                    assert_eq!(first, next);
                    for (number, payload) in r.rescued(first, end) {
                        assert_eq!(taken.remove(&number).as_deref(), Some(payload));
                        saved += 1;
                    }
                    while next != end {
                        assert_eq!(taken.remove(&next), None, "{next} was taken and not rescued");
                        next = (next + 1) % NUMBERS;
                    }
                }
            }
        }
    }
    assert!(released > 50_000 && saved > 5_000, "{released} released, {saved} rescued");
    assert!(taken.len() <= 16);
}
