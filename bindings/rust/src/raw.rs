//! The calls of include/pursethistle.h, one for one, over slices.
//!
//! They are safe functions: the library takes any contents and any numbers, and what it asks of pointers (valid for their length,
//! not null, no two of them over the same memory) every reference of Rust keeps. [`Receiver`](crate::Receiver) is made of them; by themselves they
//! are of use to whoever keeps heads and areas in memory of their own. Each returns 0 or the number of its refusal.

/// 64-bit words of a head.
pub const HEAD_WORDS: usize = 79;
/// Cells of an answer: the word (see [`word`]), eight values, and the bits of a variance.
pub const ANSWER_CELLS: usize = 10;
/// Counters, in the order of the fields of [`Counters`](crate::Counters).
pub const COUNTERS: usize = 10;
/// 64-bit words of the slot area for each slot.
pub const SLOT_WORDS: usize = 3;
/// Bytes of the payload area for each slot, and the longest payload.
pub const PAYLOAD_BYTES: usize = 1456;
/// 64-bit words of the history area.
pub const HISTORY_WORDS: usize = 2048;
/// Slots at most.
pub const CAPACITY_MAX: usize = 8192;

/// A head, as words.
pub type Head = [u64; HEAD_WORDS];
/// An answer, as cells.
pub type Answer = [i64; ANSWER_CELLS];
/// The counters, as words.
pub type Counts = [u64; COUNTERS];

/// What the first cell of an answer says. The values that follow are listed in include/pursethistle.h.
pub mod word {
    /// A packet was taken.
    pub const GOT: i64 = 0;
    /// A packet was taken, and a light ACK is due.
    pub const LIGHT: i64 = 1;
    /// A packet was taken, behind a gap.
    pub const LOSS: i64 = 2;
    /// The call was refused.
    pub const REFUSED: i64 = 3;
    /// A message was released.
    pub const MESSAGE: i64 = 4;
    /// Late packets were given up.
    pub const LATE: i64 = 5;
    /// A loss report.
    pub const REPORT: i64 = 6;
    /// A full ACK.
    pub const ACK: i64 = 7;
    /// The round trip after an ACK2.
    pub const RTT: i64 = 8;
    /// What a drop request gave up.
    pub const GONE: i64 = 9;
    /// The clock was adjusted.
    pub const ADJUSTED: i64 = 10;
    /// The clock's samples were too far apart.
    pub const UNSTEADY: i64 = 11;
    /// All was cleared.
    pub const CLEAR: i64 = 12;
    /// Nothing is due.
    pub const NONE: i64 = 13;
    /// A head was made.
    pub const MADE: i64 = 14;
    /// The room that is left.
    pub const ROOM: i64 = 15;
    /// The payload is there.
    pub const RECEIVED: i64 = 16;
    /// The number is lost, given up or not held.
    pub const OTHER: i64 = 17;
}

mod sys {
    use super::{Answer, Counts, Head};

    // Held to the prototypes of include/pursethistle.h by tests/header.rs.
    extern "C" {
        pub fn pt_new(
            head: &mut Head,
            answer: &mut Answer,
            start: i64,
            latency: u32,
            late_drop: bool,
            first: u32,
            capacity: usize,
        ) -> u32;
        pub fn pt_handle_data_packet(
            head: &mut Head,
            answer: &mut Answer,
            slots: *mut u64,
            slots_len: usize,
            payloads: *mut u8,
            payloads_len: usize,
            now: i64,
            number: u32,
            message: u32,
            location: u32,
            stamp: u32,
            payload: *const u8,
            payload_len: usize,
        ) -> u32;
        pub fn pt_pop_next_message(
            head: &mut Head,
            answer: &mut Answer,
            slots: *const u64,
            slots_len: usize,
            payloads: *const u8,
            payloads_len: usize,
            output: *mut u8,
            output_len: usize,
            now: i64,
        ) -> u32;
        pub fn pt_on_nak_event(
            head: &mut Head,
            answer: &mut Answer,
            slots: *mut u64,
            slots_len: usize,
            words: *mut u32,
            words_len: usize,
            now: i64,
        ) -> u32;
        pub fn pt_on_full_ack_event(head: &mut Head, answer: &mut Answer, history: *mut u64, history_len: usize, now: i64)
            -> u32;
        pub fn pt_handle_ack2_packet(
            head: &mut Head,
            answer: &mut Answer,
            history: *const u64,
            history_len: usize,
            now: i64,
            number: u32,
        ) -> u32;
        pub fn pt_handle_drop_request(
            head: &Head,
            answer: &mut Answer,
            slots: *mut u64,
            slots_len: usize,
            first: u32,
            last: u32,
        ) -> u32;
        pub fn pt_synchronize_clock(head: &mut Head, answer: &mut Answer, now: i64, stamp: u32) -> u32;
        pub fn pt_clear(head: &mut Head, answer: &mut Answer) -> u32;
        pub fn pt_show(
            head: &Head,
            answer: &mut Answer,
            slots: *const u64,
            slots_len: usize,
            payloads: *const u8,
            payloads_len: usize,
            number: u32,
        ) -> u32;
        pub fn pt_buffer_available(head: &Head, answer: &mut Answer) -> u32;
        pub fn pt_counted_handle_data_packet(
            head: &mut Head,
            counters: &mut Counts,
            answer: &mut Answer,
            slots: *mut u64,
            slots_len: usize,
            payloads: *mut u8,
            payloads_len: usize,
            now: i64,
            number: u32,
            message: u32,
            location: u32,
            stamp: u32,
            payload: *const u8,
            payload_len: usize,
        ) -> u32;
        pub fn pt_counted_handle_ack2_packet(
            head: &mut Head,
            counters: &mut Counts,
            answer: &mut Answer,
            history: *const u64,
            history_len: usize,
            now: i64,
            number: u32,
        ) -> u32;
        pub fn pt_counted_handle_drop_request(
            head: &Head,
            counters: &mut Counts,
            answer: &mut Answer,
            slots: *mut u64,
            slots_len: usize,
            first: u32,
            last: u32,
        ) -> u32;
        pub fn pt_counted_synchronize_clock(
            head: &mut Head,
            counters: &mut Counts,
            answer: &mut Answer,
            now: i64,
            stamp: u32,
        ) -> u32;
    }
}

// Each `unsafe` below is sound for the one reason at the top: pointers and lengths are those of slices, which are valid, not null
// and, where one of them is `&mut`, apart from each other.

/// `pt_new`.
pub fn new(head: &mut Head, answer: &mut Answer, start: i64, latency: u32, late_drop: bool, first: u32, capacity: usize) -> u32 {
    unsafe { sys::pt_new(head, answer, start, latency, late_drop, first, capacity) }
}

/// `pt_handle_data_packet`.
#[allow(clippy::too_many_arguments)]
pub fn handle_data_packet(
    head: &mut Head,
    answer: &mut Answer,
    slots: &mut [u64],
    payloads: &mut [u8],
    now: i64,
    number: u32,
    message: u32,
    location: u32,
    stamp: u32,
    payload: &[u8],
) -> u32 {
    let (slots, slots_len) = (slots.as_mut_ptr(), slots.len());
    let (payloads, payloads_len) = (payloads.as_mut_ptr(), payloads.len());
    let (payload, payload_len) = (payload.as_ptr(), payload.len());
    unsafe {
        sys::pt_handle_data_packet(
            head,
            answer,
            slots,
            slots_len,
            payloads,
            payloads_len,
            now,
            number,
            message,
            location,
            stamp,
            payload,
            payload_len,
        )
    }
}

/// `pt_counted_handle_data_packet`.
#[allow(clippy::too_many_arguments)]
pub fn counted_handle_data_packet(
    head: &mut Head,
    counters: &mut Counts,
    answer: &mut Answer,
    slots: &mut [u64],
    payloads: &mut [u8],
    now: i64,
    number: u32,
    message: u32,
    location: u32,
    stamp: u32,
    payload: &[u8],
) -> u32 {
    let (slots, slots_len) = (slots.as_mut_ptr(), slots.len());
    let (payloads, payloads_len) = (payloads.as_mut_ptr(), payloads.len());
    let (payload, payload_len) = (payload.as_ptr(), payload.len());
    unsafe {
        sys::pt_counted_handle_data_packet(
            head,
            counters,
            answer,
            slots,
            slots_len,
            payloads,
            payloads_len,
            now,
            number,
            message,
            location,
            stamp,
            payload,
            payload_len,
        )
    }
}

/// `pt_pop_next_message`.
pub fn pop_next_message(
    head: &mut Head,
    answer: &mut Answer,
    slots: &[u64],
    payloads: &[u8],
    output: &mut [u8],
    now: i64,
) -> u32 {
    let (slots, slots_len) = (slots.as_ptr(), slots.len());
    let (payloads, payloads_len) = (payloads.as_ptr(), payloads.len());
    let (output, output_len) = (output.as_mut_ptr(), output.len());
    unsafe { sys::pt_pop_next_message(head, answer, slots, slots_len, payloads, payloads_len, output, output_len, now) }
}

/// `pt_on_nak_event`.
pub fn on_nak_event(head: &mut Head, answer: &mut Answer, slots: &mut [u64], words: &mut [u32], now: i64) -> u32 {
    let (slots, slots_len) = (slots.as_mut_ptr(), slots.len());
    let (words, words_len) = (words.as_mut_ptr(), words.len());
    unsafe { sys::pt_on_nak_event(head, answer, slots, slots_len, words, words_len, now) }
}

/// `pt_on_full_ack_event`.
pub fn on_full_ack_event(head: &mut Head, answer: &mut Answer, history: &mut [u64], now: i64) -> u32 {
    unsafe { sys::pt_on_full_ack_event(head, answer, history.as_mut_ptr(), history.len(), now) }
}

/// `pt_handle_ack2_packet`.
pub fn handle_ack2_packet(head: &mut Head, answer: &mut Answer, history: &[u64], now: i64, number: u32) -> u32 {
    unsafe { sys::pt_handle_ack2_packet(head, answer, history.as_ptr(), history.len(), now, number) }
}

/// `pt_counted_handle_ack2_packet`.
pub fn counted_handle_ack2_packet(
    head: &mut Head,
    counters: &mut Counts,
    answer: &mut Answer,
    history: &[u64],
    now: i64,
    number: u32,
) -> u32 {
    unsafe { sys::pt_counted_handle_ack2_packet(head, counters, answer, history.as_ptr(), history.len(), now, number) }
}

/// `pt_handle_drop_request`.
pub fn handle_drop_request(head: &Head, answer: &mut Answer, slots: &mut [u64], first: u32, last: u32) -> u32 {
    unsafe { sys::pt_handle_drop_request(head, answer, slots.as_mut_ptr(), slots.len(), first, last) }
}

/// `pt_counted_handle_drop_request`.
pub fn counted_handle_drop_request(
    head: &Head,
    counters: &mut Counts,
    answer: &mut Answer,
    slots: &mut [u64],
    first: u32,
    last: u32,
) -> u32 {
    unsafe { sys::pt_counted_handle_drop_request(head, counters, answer, slots.as_mut_ptr(), slots.len(), first, last) }
}

/// `pt_synchronize_clock`.
pub fn synchronize_clock(head: &mut Head, answer: &mut Answer, now: i64, stamp: u32) -> u32 {
    unsafe { sys::pt_synchronize_clock(head, answer, now, stamp) }
}

/// `pt_counted_synchronize_clock`.
pub fn counted_synchronize_clock(head: &mut Head, counters: &mut Counts, answer: &mut Answer, now: i64, stamp: u32) -> u32 {
    unsafe { sys::pt_counted_synchronize_clock(head, counters, answer, now, stamp) }
}

/// `pt_clear`.
pub fn clear(head: &mut Head, answer: &mut Answer) -> u32 {
    unsafe { sys::pt_clear(head, answer) }
}

/// `pt_show`.
pub fn show(head: &Head, answer: &mut Answer, slots: &[u64], payloads: &[u8], number: u32) -> u32 {
    let (slots, slots_len) = (slots.as_ptr(), slots.len());
    let (payloads, payloads_len) = (payloads.as_ptr(), payloads.len());
    unsafe { sys::pt_show(head, answer, slots, slots_len, payloads, payloads_len, number) }
}

/// `pt_buffer_available`.
pub fn buffer_available(head: &Head, answer: &mut Answer) -> u32 {
    unsafe { sys::pt_buffer_available(head, answer) }
}
