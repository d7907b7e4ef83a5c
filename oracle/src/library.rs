// A receiver of the port's library that owns what it lends, over the calls of bindings/rust.
use pursethistle::raw::{self, Answer, Counts, Head};
pub use pursethistle::raw::{
    ANSWER_CELLS as CELLS, COUNTERS, HEAD_WORDS as HEAD, HISTORY_WORDS as HISTORY, PAYLOAD_BYTES as PAYLOAD, SLOT_WORDS as SLOT,
};

/// The words of answers, by their code.
pub const WORDS: [&str; 18] = [
    "got", "light", "loss", "refused", "message", "late", "report", "ack", "rtt", "gone", "adjusted", "unsteady", "clear",
    "none", "made", "room", "received", "other",
];

/// A data packet, as a call takes it.
#[derive(Copy, Clone)]
pub struct Packet<'a> {
    pub now: i64,
    pub number: u32,
    pub message: u32,
    pub location: u32,
    pub stamp: u32,
    pub payload: &'a [u8],
}

/// A receiver of the port with its areas. Every call returns the refusal's number, or 0, and leaves its answer in `answer`.
pub struct Port {
    pub head: Head,
    pub answer: Answer,
    pub slots: Vec<u64>,
    pub payloads: Vec<u8>,
    pub history: Vec<u64>,
    pub counters: Counts,
}

impl Port {
    /// The areas alone, as long as the capacity needs; `fresh` makes the head.
    pub fn areas(capacity: usize) -> Self {
        Self {
            head: [0; HEAD],
            answer: [0; CELLS],
            slots: vec![0; SLOT * capacity],
            payloads: vec![0; PAYLOAD * capacity],
            history: vec![0; HISTORY],
            counters: [0; COUNTERS],
        }
    }

    pub fn fresh(&mut self, start: i64, latency: u32, late_drop: bool, first: u32, capacity: usize) -> u32 {
        self.counters = [0; COUNTERS];
        raw::new(&mut self.head, &mut self.answer, start, latency, late_drop, first, capacity)
    }

    #[inline]
    pub fn data(&mut self, p: &Packet) -> u32 {
        raw::handle_data_packet(
            &mut self.head,
            &mut self.answer,
            &mut self.slots,
            &mut self.payloads,
            p.now,
            p.number,
            p.message,
            p.location,
            p.stamp,
            p.payload,
        )
    }

    #[inline]
    pub fn counted_data(&mut self, p: &Packet) -> u32 {
        raw::counted_handle_data_packet(
            &mut self.head,
            &mut self.counters,
            &mut self.answer,
            &mut self.slots,
            &mut self.payloads,
            p.now,
            p.number,
            p.message,
            p.location,
            p.stamp,
            p.payload,
        )
    }

    #[inline]
    pub fn pop(&mut self, output: &mut [u8], now: i64) -> u32 {
        raw::pop_next_message(&mut self.head, &mut self.answer, &self.slots, &self.payloads, output, now)
    }

    #[inline]
    pub fn report(&mut self, words: &mut [u32], now: i64) -> u32 {
        raw::on_nak_event(&mut self.head, &mut self.answer, &mut self.slots, words, now)
    }

    #[inline]
    pub fn ack(&mut self, now: i64) -> u32 {
        raw::on_full_ack_event(&mut self.head, &mut self.answer, &mut self.history, now)
    }

    #[inline]
    pub fn ack2(&mut self, now: i64, number: u32) -> u32 {
        raw::handle_ack2_packet(&mut self.head, &mut self.answer, &self.history, now, number)
    }

    pub fn counted_ack2(&mut self, now: i64, number: u32) -> u32 {
        raw::counted_handle_ack2_packet(&mut self.head, &mut self.counters, &mut self.answer, &self.history, now, number)
    }

    pub fn drop_request(&mut self, first: u32, last: u32) -> u32 {
        raw::handle_drop_request(&self.head, &mut self.answer, &mut self.slots, first, last)
    }

    pub fn counted_drop_request(&mut self, first: u32, last: u32) -> u32 {
        raw::counted_handle_drop_request(&self.head, &mut self.counters, &mut self.answer, &mut self.slots, first, last)
    }

    pub fn clock(&mut self, now: i64, stamp: u32) -> u32 {
        raw::synchronize_clock(&mut self.head, &mut self.answer, now, stamp)
    }

    pub fn counted_clock(&mut self, now: i64, stamp: u32) -> u32 {
        raw::counted_synchronize_clock(&mut self.head, &mut self.counters, &mut self.answer, now, stamp)
    }

    pub fn clear(&mut self) -> u32 {
        raw::clear(&mut self.head, &mut self.answer)
    }

    pub fn show(&mut self, number: u32) -> u32 {
        raw::show(&self.head, &mut self.answer, &self.slots, &self.payloads, number)
    }

    pub fn room(&mut self) -> u32 {
        raw::buffer_available(&self.head, &mut self.answer)
    }
}
