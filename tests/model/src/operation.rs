//! Document 01, "Operations", and document 02, Five and Six: the codes, their fields and the registers.

use crate::{Cause, Clock, Event, Group, Level, Platform, Side};

/// Refusal 2 begins above this code.
pub const LAST_CODE: u64 = 10;

/// How many fields an operation has, its code and cycles not counted.
pub fn own_fields(code: u64) -> Option<usize> {
    [2, 4, 4, 4, 1, 1, 2, 0, 1, 2, 4].get(usize::try_from(code).ok()?).copied()
}

/// An operation whose fields are all inside their lists. Its cycles stand beside it.
#[derive(Clone, Copy, Debug, PartialEq, Eq)]
pub enum Operation {
    Reset { size: usize, v1p1: bool },
    Branch { kind: BranchType, mispredicted: bool, source: u64, target: u64 },
    Exception { kind: u64, to: Level, source: u64, target: u64 },
    Return { to: Level, mispredicted: bool, source: u64, target: u64 },
    Platform(Platform),
    Read(Register),
    Write(Register, u64),
    InvalidateAll,
    Halt { source: u64 },
    Resume { target: u64, to: Level },
    Freeze { group: Group, clock: Clock },
}

impl Operation {
    /// The event that this operation is where it begins. "A branch stays there; 2 and 3 move to the target level"; a halt
    /// leads to Debug state and a resume from there to a level.
    #[inline]
    pub fn event(self, from: Side) -> Option<Event> {
        match self {
            Operation::Branch { kind, mispredicted, source, target } => {
                Some(Event { cause: Cause::Branch(kind), from, to: from, mispredicted, source, target })
            }
            Operation::Exception { kind, to, source, target } => {
                let (cause, to) = (Cause::Exception(kind), Side::Level(to));
                Some(Event { cause, from, to, mispredicted: false, source, target })
            }
            Operation::Return { to, mispredicted, source, target } => {
                Some(Event { cause: Cause::Return, from, to: Side::Level(to), mispredicted, source, target })
            }
            Operation::Halt { source } => {
                let to = Side::DebugState;
                Some(Event { cause: Cause::Halt, from, to, mispredicted: false, source, target: 0 })
            }
            Operation::Resume { target, to } => {
                let to = Side::Level(to);
                Some(Event { cause: Cause::Resume, from, to, mispredicted: false, source: 0, target })
            }
            _ => None,
        }
    }
}

/// The branch types, by their codes.
#[derive(Clone, Copy, Debug, PartialEq, Eq)]
pub enum BranchType {
    Direct = 0,
    Indirect = 1,
    DirectCall = 2,
    IndirectCall = 3,
    SubroutineReturn = 5,
    ConditionalDirect = 8,
}

impl BranchType {
    pub const ALL: [BranchType; 6] = [
        BranchType::Direct,
        BranchType::Indirect,
        BranchType::DirectCall,
        BranchType::IndirectCall,
        BranchType::SubroutineReturn,
        BranchType::ConditionalDirect,
    ];

    #[inline]
    pub fn from_number(number: u64) -> Option<BranchType> {
        match number {
            0 => Some(BranchType::Direct),
            1 => Some(BranchType::Indirect),
            2 => Some(BranchType::DirectCall),
            3 => Some(BranchType::IndirectCall),
            5 => Some(BranchType::SubroutineReturn),
            8 => Some(BranchType::ConditionalDirect),
            _ => None,
        }
    }

    /// The bit of BRBFCR_EL1 that this type answers to ("Which events become records").
    #[inline]
    pub fn filter_bit(self) -> u32 {
        match self {
            BranchType::Direct => 17,
            BranchType::Indirect => 18,
            BranchType::SubroutineReturn => 19,
            BranchType::IndirectCall => 20,
            BranchType::DirectCall => 21,
            BranchType::ConditionalDirect => 22,
        }
    }
}

/// "Which events become records": the exception types.
pub const EXCEPTION_TYPES: [u64; 10] = [0x22, 0x23, 0x24, 0x26, 0x27, 0x2A, 0x2B, 0x2C, 0x2E, 0x2F];

#[inline]
pub fn exception_type(number: u64) -> Option<u64> {
    EXCEPTION_TYPES.contains(&number).then_some(number)
}

/// A register that can be named in a read or write.
#[derive(Clone, Copy, Debug, PartialEq, Eq)]
pub enum Register {
    Idr0,
    Cr1,
    Cr2,
    Fcr,
    Ts,
    Record { part: Part, m: usize },
}

/// One of a record's three numbers, by its place in the record.
#[derive(Clone, Copy, Debug, PartialEq, Eq)]
pub enum Part {
    Inf = 0,
    Source = 1,
    Target = 2,
}

impl Part {
    pub const ALL: [Part; 3] = [Part::Inf, Part::Source, Part::Target];
}

impl Register {
    #[inline]
    pub fn from_number(number: u64) -> Option<Register> {
        let m = (number % 32) as usize;
        match number {
            0 => Some(Register::Idr0),
            1 => Some(Register::Cr1),
            2 => Some(Register::Cr2),
            3 => Some(Register::Fcr),
            4 => Some(Register::Ts),
            32..=63 => Some(Register::Record { part: Part::Inf, m }),
            64..=95 => Some(Register::Record { part: Part::Source, m }),
            96..=127 => Some(Register::Record { part: Part::Target, m }),
            _ => None,
        }
    }
}
