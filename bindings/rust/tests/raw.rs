//! The calls over lent memory: the head's words, damaged heads (1), short areas (2), and refusals 13 and 14, which need a head that few calls lead to.
use pursethistle::raw::*;

/// A head with areas for a capacity of 4.
#[derive(Clone, PartialEq, Debug)]
struct Lent {
    head: Head,
    counters: Counts,
    slots: Vec<u64>,
    payloads: Vec<u8>,
    history: Vec<u64>,
    output: Vec<u8>,
    words: Vec<u32>,
}

/// No call writes this, so a cell that one forgets is seen.
const UNWRITTEN: Answer = [-77; ANSWER_CELLS];

fn lent() -> Lent {
    let mut head = [0; HEAD_WORDS];
    let mut answer = UNWRITTEN;
    assert_eq!(new(&mut head, &mut answer, 10, 20_000, true, 7, 4), 0);
    assert_eq!(answer, cells(word::MADE, &[]));
    Lent {
        head,
        counters: [3; COUNTERS],
        slots: vec![!0; 4 * SLOT_WORDS],
        payloads: vec![0xee; 4 * PAYLOAD_BYTES],
        history: vec![!0; HISTORY_WORDS],
        output: vec![0xdd; 64],
        words: vec![0xcc; 8],
    }
}

/// An answer of this word with these values.
fn cells(word: i64, values: &[i64]) -> Answer {
    let mut answer = [0; ANSWER_CELLS];
    answer[0] = word;
    answer[1..][..values.len()].copy_from_slice(values);
    answer
}

const CALLS: usize = 14;

/// The call of this index, at `now` 10, with its refusal and its answer.
fn call(i: usize, l: &mut Lent) -> (u32, Answer) {
    let mut a = UNWRITTEN;
    let Lent { head, counters, slots, payloads, history, output, words } = l;
    let refusal = match i {
        0 => handle_data_packet(head, &mut a, slots, payloads, 10, 7, 0, 3, 0, b"seven"),
        1 => counted_handle_data_packet(head, counters, &mut a, slots, payloads, 10, 7, 0, 3, 0, b"seven"),
        2 => pop_next_message(head, &mut a, slots, payloads, output, 10),
        3 => show(head, &mut a, slots, payloads, 7),
        4 => on_nak_event(head, &mut a, slots, words, 10),
        5 => handle_drop_request(head, &mut a, slots, 7, 8),
        6 => counted_handle_drop_request(head, counters, &mut a, slots, 7, 8),
        7 => on_full_ack_event(head, &mut a, history, 10),
        8 => handle_ack2_packet(head, &mut a, history, 10, 1),
        9 => counted_handle_ack2_packet(head, counters, &mut a, history, 10, 1),
        10 => synchronize_clock(head, &mut a, 10, 0),
        11 => counted_synchronize_clock(head, counters, &mut a, 10, 0),
        12 => clear(head, &mut a),
        13 => buffer_available(head, &mut a),
        _ => panic!("no call {i}"),
    };
    (refusal, a)
}

/// The call is refused with this number and leaves all that was lent.
fn refused(i: usize, l: &Lent, number: u32) {
    let mut after = l.clone();
    assert_eq!(call(i, &mut after), (number, cells(word::REFUSED, &[])), "call {i}");
    assert_eq!(after, *l, "call {i}");
}

#[test]
fn a_fresh_head() {
    let mut head = [0; HEAD_WORDS];
    for (word, value) in
        [(0, 10), (1, 4), (4, 7), (5, 7), (6, 20_000), (7, 1), (8, 10), (16, 10_000), (17, 1_000), (76, 1), (77, 7), (78, 7)]
    {
        head[word] = value;
    }
    assert_eq!(lent().head, head);
}

#[test]
fn a_sound_head_is_not_refused() {
    for i in 0..CALLS {
        assert_eq!(call(i, &mut lent()).0, 0, "call {i}");
    }
}

/// A refused making leaves the head that was there.
#[test]
fn a_refused_making() {
    let mut head = [5; HEAD_WORDS];
    let mut answer = UNWRITTEN;
    assert_eq!(new(&mut head, &mut answer, 0, 0, false, 0, 0), 15);
    assert_eq!((head, answer), ([5; HEAD_WORDS], cells(word::REFUSED, &[])));
}

#[test]
fn a_damaged_head_is_1_in_every_call() {
    // The word, a value that no head has there, and why.
    let damages: [(usize, u64, &str); 47] = [
        (0, 1 << 60, "latest is a reading"),
        (0, !0, "latest is -1"),
        (1, 0, "capacity"),
        (1, 8_193, "capacity"),
        (2, 4, "start slot under capacity"),
        (3, 5, "held at most capacity"),
        (4, 1 << 31, "seqno0"),
        (4, 1 << 32 | 7, "seqno0 has 32 bits"),
        (5, 1 << 31, "lrsn"),
        (6, 65_535_001, "latency"),
        (6, 1 << 32, "latency has 32 bits"),
        (7, 2, "late dropping is 0 or 1"),
        (8, (1 << 61) + 1, "reference time"),
        (8, (-(1i64 << 61) - 1) as u64, "reference time"),
        (9, 1 << 32, "reference stamp has 32 bits"),
        (10, 2, "a moment is unset or set"),
        (11, 1, "an unset moment has no time"),
        (12, 2, "the flag is 0 or 1"),
        (13, 0x7ff8_0000_0000_0001, "another NaN"),
        (13, 0xfff8_0000_0000_0000, "another NaN"),
        (14, 0x7ff0_0000_0000_0001, "another NaN"),
        (15, 1_000, "samples 0 to 999"),
        (15, 1 << 32, "samples have 32 bits"),
        (16, 1 << 31, "mean RTT"),
        (17, 1 << 31, "variance"),
        (17, 1 << 32, "variance has 32 bits"),
        (18, 1 << 32, "an interval has 32 bits"),
        (33, 1 << 32, "an interval has 32 bits"),
        (34, 1 << 32, "a size has 32 bits"),
        (49, 1 << 32, "a size has 32 bits"),
        (50, 16, "place in a window of 16"),
        (51, 17, "at most 16 intervals"),
        (52, 2, "a moment is unset or set"),
        (53, 1, "an unset moment has no time"),
        (54, 1 << 32, "an interval has 32 bits"),
        (69, 1 << 32, "an interval has 32 bits"),
        (70, 16, "place in a window of 16"),
        (71, 17, "at most 16 intervals"),
        (72, 3, "a moment is unset or set"),
        (73, 1, "an unset moment has no time"),
        (74, 1_024, "history start"),
        (75, 1_025, "history count"),
        (76, 0, "ACK number"),
        (76, 1 << 32, "ACK number has 32 bits"),
        (77, 1 << 31, "largest_ack2_dsn"),
        (78, 1 << 31, "last_ack_dsn"),
        (78, 1 << 32, "last_ack_dsn has 32 bits"),
    ];
    for (word, value, why) in damages {
        let mut l = lent();
        l.head[word] = value;
        for i in 0..CALLS {
            println!("word {word} is {value:#x}: {why}");
            refused(i, &l, 1);
        }
    }
}

/// Each bit of each word turned over: a call refuses with 1 and changes nothing, or goes on as on any head.
#[test]
fn any_damage_is_taken_or_refused() {
    let mut taken = 0;
    for bit in 0..64 * HEAD_WORDS {
        let mut l = lent();
        l.head[bit / 64] ^= 1 << (bit % 64);
        let refusal = call(13, &mut l.clone()).0;
        taken += u32::from(refusal == 0);
        for i in 0..CALLS {
            match refusal {
                1 => refused(i, &l, 1),
                _ => assert_ne!(call(i, &mut l.clone()).0, 1, "bit {bit}, call {i}"),
            }
        }
    }
    // Both kinds are there: the low bits of a latency may turn, the high ones may not.
    assert!(taken > 500 && taken < 64 * HEAD_WORDS as u32 - 500, "{taken}");
}

/// Values at the ends of their ranges, and the one NaN, are sound.
#[test]
fn the_ends_of_the_ranges_are_sound() {
    for (word, value) in [
        (0, (1u64 << 60) - 1),
        (1, 8_192),
        (3, 4),
        (6, 65_535_000),
        (7, 0),
        (8, 1 << 61),
        (8, (-(1i64 << 61)) as u64),
        (9, (1 << 32) - 1),
        (12, 1),
        (13, 0x7ff8_0000_0000_0000),
        (14, 0x7ff0_0000_0000_0000),
        (15, 999),
        (16, (1 << 31) - 1),
        (18, (1 << 32) - 1), // behind the count: not in the window, so not tested
        (75, 1_024),
        (76, (1 << 32) - 1),
    ] {
        let mut l = lent();
        l.head[word] = value;
        assert_eq!(call(13, &mut l).0, 0, "word {word} is {value:#x}");
    }
}

#[test]
fn a_short_area_is_2() {
    // A call tests the areas that it takes.
    let short_slots = Lent { slots: vec![0; 11], ..lent() };
    let short_payloads = Lent { payloads: vec![0; 4 * PAYLOAD_BYTES - 1], ..lent() };
    let short_history = Lent { history: vec![0; 2047], ..lent() };
    let none = Lent { slots: vec![], payloads: vec![], history: vec![], ..lent() };
    for i in 0..CALLS {
        for (l, takes) in [(&short_slots, 0..=6), (&short_payloads, 0..=3), (&short_history, 7..=9), (&none, 0..=9)] {
            if takes.contains(&i) {
                refused(i, l, 2);
            } else {
                assert_eq!(call(i, &mut l.clone()).0, 0, "call {i}");
            }
        }
    }
}

/// Longer areas will do; what is behind the capacity stays.
#[test]
fn longer_areas() {
    let mut l = lent();
    l.slots.extend([9; 5]);
    l.payloads.extend([9; 5]);
    assert_eq!(call(0, &mut l), (0, cells(word::GOT, &[8, 0])));
    assert_eq!((&l.slots[12..], &l.payloads[4 * PAYLOAD_BYTES..]), (&[9; 5][..], &[9; 5][..]));
}

#[test]
fn answers_as_cells() {
    let mut l = lent();
    let mut a = UNWRITTEN;
    assert_eq!(call(0, &mut l), (0, cells(word::GOT, &[8, 0])));
    // Slot 0 now: received, 5 bytes, location 3, message 0; stamp 0; no feedback time.
    assert_eq!(l.slots[..4], [1 | 5 << 2 | 3 << 13, 0, 0, !0]);
    assert_eq!((&l.payloads[..5], l.payloads[5]), (&b"seven"[..], 0xee));
    assert_eq!(call(3, &mut l), (0, cells(word::RECEIVED, &[0, 5])));
    assert_eq!(handle_data_packet(&mut l.head, &mut a, &mut l.slots, &mut l.payloads, 10, 12, 0, 3, 0, b""), 8);
    assert_eq!(a, cells(word::REFUSED, &[3, 5]));
    assert_eq!(handle_data_packet(&mut l.head, &mut a, &mut l.slots, &mut l.payloads, 10, 10, 0, 3, 0, b"ten"), 0);
    assert_eq!(a, cells(word::LOSS, &[8, 9]));
    assert_eq!(show(&l.head, &mut a, &l.slots, &l.payloads, 10), 0);
    assert_eq!(a, cells(word::RECEIVED, &[3 * PAYLOAD_BYTES as i64, 3]));
    assert_eq!(show(&l.head, &mut a, &l.slots, &l.payloads, 9), 0);
    assert_eq!(a, cells(word::OTHER, &[]));
    assert_eq!(call(13, &mut l), (0, cells(word::ROOM, &[0])));
    assert_eq!(on_nak_event(&mut l.head, &mut a, &mut l.slots, &mut l.words, 20_011), 0);
    assert_eq!((a, &l.words[..3]), (cells(word::REPORT, &[2]), &[0x8000_0008, 9, 0xcc][..]));
    assert_eq!(pop_next_message(&mut l.head, &mut a, &l.slots, &l.payloads, &mut l.output, 20_011), 0);
    assert_eq!((a, &l.output[..6]), (cells(word::MESSAGE, &[10, 5, 1]), &b"seven\xdd"[..]));
    assert_eq!(on_full_ack_event(&mut l.head, &mut a, &mut l.history, 20_011), 0);
    assert_eq!(a, cells(word::ACK, &[1, 8, 10_000, 1_000, 1, -1, -1, -1]));
    assert_eq!(l.history[..3], [8, 20_011, !0]);
    assert_eq!(handle_ack2_packet(&mut l.head, &mut a, &l.history, 38_011, 1), 0);
    assert_eq!(a, cells(word::RTT, &[11_000, 2_500]));
    assert_eq!(handle_drop_request(&l.head, &mut a, &mut l.slots, 8, 8), 0);
    assert_eq!(a, cells(word::GONE, &[1]));
    assert_eq!(pop_next_message(&mut l.head, &mut a, &l.slots, &l.payloads, &mut l.output, 38_011), 0);
    // 10 came with stamp 0, so it was due at 10 + 20,000.
    assert_eq!(a, cells(word::LATE, &[8, 11, 18_001]));
    assert_eq!(synchronize_clock(&mut l.head, &mut a, 38_011, 0), 0);
    assert_eq!(a, cells(word::NONE, &[]));
    assert_eq!(clear(&mut l.head, &mut a), 0);
    assert_eq!(a, cells(word::CLEAR, &[]));
}

/// A call and its counted twin leave the same; only the counters differ.
#[test]
fn counted_calls_do_the_same() {
    let mut rich = lent();
    for number in [8, 10] {
        let Lent { head, slots, payloads, .. } = &mut rich;
        handle_data_packet(head, &mut UNWRITTEN.clone(), slots, payloads, 10, number, 0, 3, 0, b"lost before");
    }
    assert_eq!(call(7, &mut rich).1[0], word::NONE);
    for l in [lent(), rich] {
        for (plain, counted) in [(0, 1), (5, 6), (8, 9), (10, 11)] {
            let (mut one, mut two) = (l.clone(), l.clone());
            assert_eq!(call(plain, &mut one), call(counted, &mut two));
            assert_eq!(one.counters, [3; COUNTERS]);
            one.counters = two.counters;
            assert_eq!(one, two);
        }
    }
}

/// Counters go on mod 2^64.
#[test]
fn counters_wrap() {
    let mut l = lent();
    l.counters = [!0; COUNTERS];
    assert_eq!(call(1, &mut l), (0, cells(word::GOT, &[8, 0])));
    // A packet of 5 bytes, taken, not recovered.
    assert_eq!(l.counters, [0, 20, 0, 20, !0, !0, !0, !0, !0, !0]);
}

#[test]
fn fasn_worn_is_13() {
    let mut l = lent();
    // One ACK in the history, of data number 0 at 0 and with the last number there is.
    (l.head[75], l.head[76]) = (1, (1 << 32) - 1);
    l.history[..2].copy_from_slice(&[0, 0]);
    // Nothing came, so none is due.
    assert_eq!(call(7, &mut l), (0, cells(word::NONE, &[])));
    assert_eq!(call(0, &mut l), (0, cells(word::GOT, &[8, 0])));
    refused(7, &l, 13);
    // One number earlier it is given.
    l.head[76] -= 1;
    assert_eq!(call(7, &mut l), (0, cells(word::ACK, &[u32::MAX.into(), 8, 10_000, 1_000, 3, -1, -1, -1])));
}

#[test]
fn drift_range_is_14() {
    let mut l = lent();
    // The reference time at its upper end, 2^61: as a stamp 10 - 2^61 is 10, so stamp 11 is a drift of -1, which would raise it.
    l.head[8] = 1 << 61;
    let mut a = UNWRITTEN;
    let before = l.head;
    assert_eq!(synchronize_clock(&mut l.head, &mut a, 10, 11), 14);
    assert_eq!((l.head, a), (before, cells(word::REFUSED, &[])));
    assert_eq!(counted_synchronize_clock(&mut l.head, &mut l.counters, &mut a, 10, 11), 14);
    assert_eq!((l.head, l.counters), (before, [3; COUNTERS]));
    assert_eq!(synchronize_clock(&mut l.head, &mut a, 10, 10), 0);
    assert_eq!((l.head[12], a), (1, cells(word::NONE, &[])));
}

/// The variance of unsteady samples, as bits in the last cell.
#[test]
fn the_variance_in_the_last_cell() {
    let mut l = lent();
    let mut a = UNWRITTEN;
    // 999 samples of mean 0, whose squares sum to 10^11, and one of 0: v is 10^8, its root 10,000.
    (l.head[12], l.head[15]) = (1, 999);
    l.head[14] = 1e11f64.to_bits();
    assert_eq!(synchronize_clock(&mut l.head, &mut a, 10, 0), 0);
    let mut unsteady = cells(word::UNSTEADY, &[10_000]);
    unsteady[9] = 1e8f64.to_bits() as i64;
    assert_eq!(a, unsteady);
    assert_eq!(l.head[13..=15], [0, 0, 0]);
}
