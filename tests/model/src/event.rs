//! Document 01, "Which events become records", and document 02, Five: the words for an event and its record.

use crate::{BranchType, Level};

/// A branch, exception, return, halt or resume that leads from one side to another.
#[derive(Clone, Copy, Debug, PartialEq, Eq)]
pub struct Event {
    pub cause: Cause,
    pub from: Side,
    pub to: Side,
    /// False for exceptions, halts and resumes.
    pub mispredicted: bool,
    /// 0 where the source is in Debug state, which hands in no address.
    pub source: u64,
    /// 0 where the target is in Debug state.
    pub target: u64,
}

/// Where an event comes from or leads to: Debug state is a side like a level (`docs/DECISIONS.md`, point 48).
#[derive(Clone, Copy, Debug, PartialEq, Eq)]
pub enum Side {
    Level(Level),
    DebugState,
}

impl Side {
    /// What a record that shows this side has as its level. None shows Debug state.
    #[inline]
    pub fn number(self) -> u64 {
        match self {
            Side::Level(level) => level.number(),
            Side::DebugState => 0,
        }
    }
}

#[derive(Clone, Copy, Debug, PartialEq, Eq)]
pub enum Cause {
    Branch(BranchType),
    Exception(u64),
    Return,
    Halt,
    Resume,
}

impl Cause {
    /// BRBINF's TYPE.
    pub fn number(self) -> u64 {
        match self {
            Cause::Branch(kind) => kind as u64,
            Cause::Exception(kind) => kind,
            Cause::Return => 7,
            Cause::Halt => 0x21,
            Cause::Resume => 0x39,
        }
    }
}

/// Which sides of an event a record shows, by BRBINF's VALID.
#[derive(Clone, Copy, Debug, PartialEq, Eq)]
pub enum Shape {
    HalfTarget = 1,
    HalfSource = 2,
    Full = 3,
}

impl Shape {
    pub fn has_source(self) -> bool {
        self != Shape::HalfTarget
    }

    pub fn has_target(self) -> bool {
        self != Shape::HalfSource
    }
}

/// A record: BRBINF, BRBSRC, BRBTGT.
pub type Record = [u64; 3];
