//! Answers, as numbers and by name.

use crate::{DONE, REFUSED_CODE, REFUSED_MALFORMED, REFUSED_STATE, TRAP2, TRAP3, UNDEFINED};

/// What the library answers, as it answers it: `struct brb_answer` of `include/brb.h`, which lists the numbers.
#[repr(C)]
#[derive(Clone, Copy, Debug, PartialEq, Eq)]
pub struct Answer {
    /// 0 where the operation is done, 100 and above where its access is not performed, 1 to 8 where it is refused.
    pub number: u64,
    /// What a read read; 0 for every other operation and every other number. A function that is no single operation says
    /// itself what it answers here.
    pub value: u64,
}

impl Answer {
    /// The answer by name.
    pub fn outcome(self) -> Outcome {
        match self.number {
            DONE => Outcome::Done(self.value),
            UNDEFINED => Outcome::Undefined,
            TRAP2 => Outcome::Trap2,
            TRAP3 => Outcome::Trap3,
            refusal => Outcome::Refused(refusal),
        }
    }

    /// Whether the operation was refused, so that nothing changed and its cycles do not count.
    pub fn is_refusal(self) -> bool {
        matches!(self.outcome(), Outcome::Refused(_))
    }
}

/// An answer by name.
#[derive(Clone, Copy, Debug, PartialEq, Eq)]
pub enum Outcome {
    /// Done, with what a read read and 0 for every other operation.
    Done(u64),
    /// Accepted; the access is undefined.
    Undefined,
    /// Accepted; the access traps to EL2.
    Trap2,
    /// Accepted; the access traps to EL3.
    Trap3,
    /// Refused, by the number in the table of refusals, as [`REFUSED_HALTED`](crate::REFUSED_HALTED).
    Refused(u64),
}

/// The smallest and the largest count that an encoding may stand for, or a run of encodings together: `struct brb_spread` of
/// `include/brb.h`.
#[repr(C)]
#[derive(Clone, Copy, Debug, PartialEq, Eq)]
pub struct Spread {
    /// 0, or the refusal with 0 in all else: 4 where something is no encoding, 9 where a sum passes 2^64 - 1.
    pub number: u64,
    /// The smallest count.
    pub low: u64,
    /// The largest count; 0 where there is none.
    pub high: u64,
    /// 1 where there is a largest count, 0 where a count exceeded the counter, so that there is no upper end.
    pub bounded: u64,
}

impl Spread {
    /// Both ends by name, the upper one none where a count exceeded the counter; or the number of the refusal.
    pub fn ends(self) -> Result<(u64, Option<u64>), u64> {
        match self {
            Spread { number: DONE, low, high, bounded } => Ok((low, (bounded == 1).then_some(high))),
            Spread { number, .. } => Err(number),
        }
    }
}

/// What the library answers to one operation of a recording: `struct brb_recorded` of `include/brb.h`.
#[repr(C)]
#[derive(Clone, Copy, Debug, PartialEq, Eq)]
pub struct Recorded {
    /// As [`Answer::number`].
    pub number: u64,
    /// As [`Answer::value`].
    pub value: u64,
    /// The position after the operation; after 1 or 2 where the bad number starts, after 7 where reading was to begin.
    pub next: u64,
}

impl Recorded {
    /// The answer to the operation, without the position.
    pub fn answer(self) -> Answer {
        Answer { number: self.number, value: self.value }
    }

    /// Whether reading stops here: after 7, 1 or 2.
    pub fn stops(self) -> bool {
        matches!(self.number, REFUSED_STATE | REFUSED_MALFORMED | REFUSED_CODE)
    }
}
