//! The refusals.
use crate::raw;
use std::fmt;

/// Why a call was refused, in the rules' order of test: the first that holds is given.
///
/// A [`Receiver`](crate::Receiver) never meets 1 and 2, since its head and its areas are its own. It meets 13 only after 2^32 full ACKs,
/// and 14 only after 2^29 adjustments of its clock.
#[non_exhaustive]
#[derive(Debug, Clone, Copy, PartialEq, Eq, Hash)]
pub enum Refusal {
    /// 1: a number of the head is outside its range, or the words are no head (`include/pursethistle.h` lists 1a to
    /// 1e). A `Receiver` never answers it; words of your own through `raw` may.
    HeadBad,
    /// 2: an area is too short.
    AreaShort,
    /// 3: the reading is not in 0 to 2^60 - 1.
    ClockRange,
    /// 4: the reading is before the latest one of a call that was not refused, at first the start time.
    ClockBack,
    /// 5: a sequence number is 2^31 or more, a message number 2^26 or more, or a location over 3.
    BadNumber,
    /// 6: the payload is over 1,456 bytes.
    PayloadLong,
    /// 7: the packet is the next expected one, and there is no room.
    BufferFull,
    /// 8: the packet is after the next expected one, and there is too little room for it and the gap before it.
    PacketTooEarly {
        /// The room there is.
        room: usize,
        /// The room it needs.
        need: usize,
    },
    /// 9: the packet is before the window: it was released or discarded already.
    PacketTooLate,
    /// 10: the packet was received, or given up, already.
    DiscardedDuplicate,
    /// 11: a message is due and whole, and longer than the output. It stays, for a longer output.
    OutShort,
    /// 12: the loss report needs more words than were lent. It stays due.
    ListShort,
    /// 13: a full ACK is due, and the newest was number 4,294,967,295.
    FasnWorn,
    /// 14: the adjusted reference time would be out of range.
    DriftRange,
    /// 15: a setting, the start or the first number is out of range.
    BadSetting,
}

impl Refusal {
    /// The refusal that a call of the library returned.
    pub(crate) fn from_answer(number: u32, answer: &raw::Answer) -> Refusal {
        match number {
            1 => Refusal::HeadBad,
            2 => Refusal::AreaShort,
            3 => Refusal::ClockRange,
            4 => Refusal::ClockBack,
            5 => Refusal::BadNumber,
            6 => Refusal::PayloadLong,
            7 => Refusal::BufferFull,
            8 => Refusal::PacketTooEarly { room: crate::answers::cell(answer, 1), need: crate::answers::cell(answer, 2) },
            9 => Refusal::PacketTooLate,
            10 => Refusal::DiscardedDuplicate,
            11 => Refusal::OutShort,
            12 => Refusal::ListShort,
            13 => Refusal::FasnWorn,
            14 => Refusal::DriftRange,
            15 => Refusal::BadSetting,
            _ => panic!("refusal {number} is not known: the static library is not of this crate's version"),
        }
    }

    /// Its number in the rules, 1 to 15.
    pub fn number(self) -> u32 {
        match self {
            Refusal::HeadBad => 1,
            Refusal::AreaShort => 2,
            Refusal::ClockRange => 3,
            Refusal::ClockBack => 4,
            Refusal::BadNumber => 5,
            Refusal::PayloadLong => 6,
            Refusal::BufferFull => 7,
            Refusal::PacketTooEarly { .. } => 8,
            Refusal::PacketTooLate => 9,
            Refusal::DiscardedDuplicate => 10,
            Refusal::OutShort => 11,
            Refusal::ListShort => 12,
            Refusal::FasnWorn => 13,
            Refusal::DriftRange => 14,
            Refusal::BadSetting => 15,
        }
    }
}

/// `refused 8: packet too early, room 1, needs 3`.
impl fmt::Display for Refusal {
    fn fmt(&self, f: &mut fmt::Formatter<'_>) -> fmt::Result {
        write!(f, "refused {}: ", self.number())?;
        match self {
            Refusal::HeadBad => write!(f, "a number of the head is out of range"),
            Refusal::AreaShort => write!(f, "an area is too short"),
            Refusal::ClockRange => write!(f, "the reading is out of range"),
            Refusal::ClockBack => write!(f, "the reading is before the latest one"),
            Refusal::BadNumber => write!(f, "a number is out of range"),
            Refusal::PayloadLong => write!(f, "the payload is over 1,456 bytes"),
            Refusal::BufferFull => write!(f, "the window is full"),
            Refusal::PacketTooEarly { room, need } => write!(f, "packet too early, room {room}, needs {need}"),
            Refusal::PacketTooLate => write!(f, "packet too late"),
            Refusal::DiscardedDuplicate => write!(f, "packet received or given up already"),
            Refusal::OutShort => write!(f, "the message is longer than the output"),
            Refusal::ListShort => write!(f, "the loss report needs more words"),
            Refusal::FasnWorn => write!(f, "no ACK number is left"),
            Refusal::DriftRange => write!(f, "the reference time would be out of range"),
            Refusal::BadSetting => write!(f, "a setting is out of range"),
        }
    }
}

impl std::error::Error for Refusal {}

#[cfg(test)]
mod tests {
    use super::*;

    #[test]
    fn numbers_come_back() {
        let mut answer = [0; raw::ANSWER_CELLS];
        (answer[1], answer[2]) = (1, 3);
        for number in 1..=15 {
            let refusal = Refusal::from_answer(number, &answer);
            assert_eq!(refusal.number(), number);
            assert!(refusal.to_string().starts_with(&format!("refused {number}: ")));
        }
        let early = Refusal::from_answer(8, &answer);
        assert_eq!(early, Refusal::PacketTooEarly { room: 1, need: 3 });
        assert_eq!(early.to_string(), "refused 8: packet too early, room 1, needs 3");
    }

    #[test]
    #[should_panic(expected = "not of this crate's version")]
    fn a_number_that_is_not_known() {
        Refusal::from_answer(16, &[0; raw::ANSWER_CELLS]);
    }
}
