//! Document 01, "Access outcomes": the words for an access and what comes of it.

use crate::{Answer, Register};

/// A register access or BRB IALL.
#[derive(Clone, Copy, Debug, PartialEq, Eq)]
pub enum Access {
    Read(Register),
    Write(Register),
    InvalidateAll,
}

impl Access {
    #[inline]
    pub fn register(self) -> Option<Register> {
        match self {
            Access::Read(register) | Access::Write(register) => Some(register),
            Access::InvalidateAll => None,
        }
    }
}

/// What comes of an access.
#[derive(Clone, Copy, Debug, PartialEq, Eq)]
pub enum Outcome {
    Performed,
    Undefined,
    Trap2,
    Trap3,
}

impl Outcome {
    /// The answer of an access, which is `performed` where it is performed.
    #[inline]
    pub fn or_else(self, performed: impl FnOnce() -> Answer) -> Answer {
        match self {
            Outcome::Performed => performed(),
            Outcome::Undefined => Answer::Undefined,
            Outcome::Trap2 => Answer::Trap2,
            Outcome::Trap3 => Answer::Trap3,
        }
    }
}
