// Stand-ins, written from document 01 ("Numbers", "Window"), for the packet types whose Rust is not in the text; and packet/time.rs
// itself. README.md lists what each stand-in could hide.
use std::{
    cell::Cell,
    cmp::Ordering,
    ops::{Add, AddAssign, Range, Rem, Sub},
};

use bytes::Bytes;

use crate::protocol::time::Rtt;

mod time {
    include!(concat!(env!("CARGO_MANIFEST_DIR"), "/../docs/src/packet/time.rs"));
}
pub use time::*;

const WIDTH: u32 = 1 << 31;
const HALF: u32 = 1 << 30;

thread_local! {
    /// Set by every comparison of two numbers 2^30 apart: 01 puts a tie outside the domain.
    pub static TIE: Cell<bool> = const { Cell::new(false) };
}

#[derive(Copy, Clone, Debug, PartialEq, Eq, Hash)]
pub struct SeqNumber(pub u32);

impl SeqNumber {
    fn distance(self, other: Self) -> u32 {
        self.0.wrapping_sub(other.0) % WIDTH
    }

    pub fn saturating_sub(self, other: Self) -> usize {
        if self < other {
            0
        } else {
            self.distance(other) as usize
        }
    }
}

impl Ord for SeqNumber {
    fn cmp(&self, other: &Self) -> Ordering {
        let d = self.distance(*other);
        if d == HALF {
            TIE.with(|t| t.set(true));
        }
        match d {
            0 => Ordering::Equal,
            d if d < HALF => Ordering::Greater,
            _ => Ordering::Less,
        }
    }
}

impl PartialOrd for SeqNumber {
    fn partial_cmp(&self, other: &Self) -> Option<Ordering> {
        Some(self.cmp(other))
    }
}

impl Add<u32> for SeqNumber {
    type Output = Self;
    fn add(self, n: u32) -> Self {
        Self(self.0.wrapping_add(n) % WIDTH)
    }
}

impl AddAssign<u32> for SeqNumber {
    fn add_assign(&mut self, n: u32) {
        *self = *self + n;
    }
}

impl Sub<u32> for SeqNumber {
    type Output = Self;
    fn sub(self, n: u32) -> Self {
        Self(self.0.wrapping_sub(n) % WIDTH)
    }
}

impl Sub for SeqNumber {
    type Output = u32;
    fn sub(self, other: Self) -> u32 {
        self.distance(other)
    }
}

impl Rem<u32> for SeqNumber {
    type Output = u32;
    fn rem(self, n: u32) -> u32 {
        self.0 % n
    }
}

#[derive(Copy, Clone, Debug, PartialEq, Eq)]
pub struct MsgNumber(pub u32);

#[derive(Copy, Clone, Debug, PartialEq, Eq)]
pub struct PacketLocation(pub u8);

impl PacketLocation {
    pub const FIRST: Self = Self(2);
    pub const LAST: Self = Self(1);

    pub fn contains(self, other: Self) -> bool {
        self.0 & other.0 == other.0
    }
}

#[derive(Clone, Debug, PartialEq, Eq)]
pub struct DataPacket {
    pub seq_number: SeqNumber,
    pub message_loc: PacketLocation,
    pub message_number: MsgNumber,
    pub timestamp: TimeStamp,
    pub payload: Bytes,
}

impl DataPacket {
    /// 01: "a packet's size payload + 16" (entry 7 of DIFFERENCES.md).
    pub fn wire_size(&self) -> usize {
        self.payload.len() + 16
    }
}

#[derive(Copy, Clone, Debug, PartialEq, Eq, PartialOrd, Ord)]
pub struct FullAckSeqNumber(pub u32);

impl FullAckSeqNumber {
    pub const INITIAL: Self = Self(1);
}

impl Add<u32> for FullAckSeqNumber {
    type Output = Self;
    fn add(self, n: u32) -> Self {
        Self(self.0.checked_add(n).expect("the newest ACK number is the last one"))
    }
}

impl Sub for FullAckSeqNumber {
    type Output = usize;
    fn sub(self, other: Self) -> usize {
        (self.0 - other.0) as usize
    }
}

/// The reported numbers as runs, first and last, both in.
#[derive(Clone, Debug, PartialEq, Eq)]
pub struct CompressedLossList(pub Vec<(SeqNumber, SeqNumber)>);

impl CompressedLossList {
    pub fn try_from_iter(numbers: impl Iterator<Item = SeqNumber>) -> Option<Self> {
        let mut runs: Vec<(SeqNumber, SeqNumber)> = Vec::new();
        for number in numbers {
            match runs.last_mut() {
                Some((_, last)) if *last + 1 == number => *last = number,
                _ => runs.push((number, number)),
            }
        }
        if runs.is_empty() {
            None
        } else {
            Some(Self(runs))
        }
    }

    /// 01: "a single number; a run of two or more consecutive mod 2^31 as first with bit 31 set, then last".
    pub fn words(&self) -> Vec<u32> {
        let mut words = Vec::new();
        for (first, last) in &self.0 {
            if first == last {
                words.push(first.0);
            } else {
                words.extend([first.0 | WIDTH, last.0]);
            }
        }
        words
    }
}

impl From<Range<SeqNumber>> for CompressedLossList {
    fn from(range: Range<SeqNumber>) -> Self {
        Self(vec![(range.start, range.end - 1)])
    }
}

#[derive(Copy, Clone, Debug, PartialEq, Eq)]
pub struct AckStatistics {
    pub rtt: Rtt,
    pub buffer_available: u32,
    pub packet_receive_rate: Option<u32>,
    pub estimated_link_capacity: Option<u32>,
    pub data_receive_rate: Option<u32>,
}

#[derive(Copy, Clone, Debug, PartialEq, Eq)]
pub enum Acknowledgement {
    Lite(SeqNumber),
    Full(SeqNumber, AckStatistics, FullAckSeqNumber),
}

#[derive(Clone, Debug)]
pub struct KeyingMaterialMessage;

#[derive(Clone, Debug)]
pub enum SrtControlPacket {
    KeyRefreshResponse(KeyingMaterialMessage),
}

#[derive(Clone, Debug)]
pub enum ControlTypes {
    Ack(Acknowledgement),
    Nak(CompressedLossList),
    Srt(SrtControlPacket),
}
