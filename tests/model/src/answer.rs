/// A refusal, by its number in document 01's table, or by the number that a request of document 02 gives it.
#[derive(Clone, Copy, Debug, PartialEq, Eq)]
pub enum Refusal {
    Malformed = 1,
    UnknownCode = 2,
    NotReset = 3,
    OutsideList = 4,
    NotPermitted = 5,
    RoomTooShort = 6,
    NotSound = 7,
    /// Document 02, Five: the processor is halted, or it is not, and the operation asks for the other.
    Halted = 8,
    /// Of a sum of counts alone (`docs/MANUAL.md`, "The spread of a count").
    SumTooLarge = 9,
}

/// What an operation is answered.
#[derive(Clone, Copy, Debug, PartialEq, Eq)]
pub enum Answer {
    /// Done, and not a read.
    Done,
    /// A read was performed and read this.
    Read(u64),
    Undefined,
    Trap2,
    Trap3,
    Refused(Refusal),
}

impl Answer {
    /// The answer's number: 0, 100, 102, 103 or the refusal's.
    #[inline]
    pub fn number(self) -> u64 {
        match self {
            Answer::Done | Answer::Read(_) => 0,
            Answer::Undefined => 100,
            Answer::Trap2 => 102,
            Answer::Trap3 => 103,
            Answer::Refused(refusal) => refusal as u64,
        }
    }

    /// A value that is 0 but for a read.
    #[inline]
    pub fn value(self) -> u64 {
        match self {
            Answer::Read(value) => value,
            _ => 0,
        }
    }
}
