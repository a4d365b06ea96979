//! Operations by name.

use crate::{
    CODE_BRANCH, CODE_EXCEPTION, CODE_FREEZE, CODE_HALT, CODE_IALL, CODE_PLATFORM, CODE_READ, CODE_RESET, CODE_RESUME,
    CODE_RETURN, CODE_WRITE,
};

/// One operation: its code, the cycles passed since the previous operation, and its fields in order. Numbers beyond the
/// operation's own fields are not looked at.
///
/// Any numbers make an operation; the library refuses those that are outside their lists.
#[derive(Clone, Copy, Debug, PartialEq, Eq)]
pub struct Operation {
    /// What it is, as [`CODE_RESET`].
    pub code: u64,
    /// The cycles passed since the previous operation.
    pub cycles: u64,
    /// Its fields in order, 0 for those that it has not.
    pub fields: [u64; 4],
}

impl Operation {
    /// A reset to a buffer of 8, 16, 32 or 64 records, with FEAT_BRBEv1p1 or without.
    pub fn reset(size: u64, v1p1: bool) -> Operation {
        Operation { code: CODE_RESET, cycles: 0, fields: [size, u64::from(v1p1), 0, 0] }
    }

    /// A taken branch of this type, as [`TYPE_DIRECT`](crate::TYPE_DIRECT).
    pub fn branch(cycles: u64, kind: u64, mispredicted: bool, source: u64, target: u64) -> Operation {
        Operation { code: CODE_BRANCH, cycles, fields: [kind, u64::from(mispredicted), source, target] }
    }

    /// An exception of this type, as [`TYPE_CALL`](crate::TYPE_CALL), taken to this level.
    pub fn exception(cycles: u64, kind: u64, level: u64, source: u64, target: u64) -> Operation {
        Operation { code: CODE_EXCEPTION, cycles, fields: [kind, level, source, target] }
    }

    /// An exception return to this level.
    pub fn exception_return(cycles: u64, level: u64, mispredicted: bool, source: u64, target: u64) -> Operation {
        Operation { code: CODE_RETURN, cycles, fields: [level, u64::from(mispredicted), source, target] }
    }

    /// A new platform word P, of bits as [`P_NS`](crate::P_NS).
    pub fn platform(cycles: u64, p: u64) -> Operation {
        Operation { code: CODE_PLATFORM, cycles, fields: [p, 0, 0, 0] }
    }

    /// A read of a register, as [`REGISTER_BRBCR_EL1`](crate::REGISTER_BRBCR_EL1) or
    /// [`register_brbinf`](crate::register_brbinf) of 0.
    pub fn read(cycles: u64, register: u64) -> Operation {
        Operation { code: CODE_READ, cycles, fields: [register, 0, 0, 0] }
    }

    /// A write of a register.
    pub fn write(cycles: u64, register: u64, value: u64) -> Operation {
        Operation { code: CODE_WRITE, cycles, fields: [register, value, 0, 0] }
    }

    /// BRB IALL.
    pub fn invalidate_all(cycles: u64) -> Operation {
        Operation { code: CODE_IALL, cycles, fields: [0; 4] }
    }

    /// A halt: the processor enters Debug state from this address. Until the resume branches, exceptions, returns and a second
    /// halt are refused with [`REFUSED_HALTED`](crate::REFUSED_HALTED).
    ///
    /// ```
    /// use brb::{Inf, Operation, Outcome, Recorder};
    ///
    /// let mut recorder = Recorder::new();
    /// recorder.step(Operation::reset(8, true));
    /// recorder.step(Operation::platform(0, brb::P_EL3_RECORDING));
    /// assert!(!recorder.step(Operation::halt(100, 0x1004)).is_refusal());
    /// assert_eq!(recorder.state()[brb::STATE_HALTED], 1);
    /// let branch = recorder.step(Operation::branch(1, brb::TYPE_DIRECT, false, 0x1008, 0x2000));
    /// assert_eq!(branch.outcome(), Outcome::Refused(brb::REFUSED_HALTED));
    /// assert!(!recorder.step(Operation::resume(5000, 0x1008, brb::LEVEL_EL3)).is_refusal());
    /// let records: Vec<[u64; 3]> = recorder.records().take(2).collect();
    /// let [resume, halt] = [0, 1].map(|record| Inf::of(records[record][0]));
    /// assert_eq!((halt.kind, halt.valid, halt.level), (brb::TYPE_DEBUG_HALT, brb::VALID_HALF_SOURCE, 0));
    /// assert_eq!((resume.kind, resume.valid, resume.level), (brb::TYPE_DEBUG_EXIT, brb::VALID_HALF_TARGET, 3));
    /// assert_eq!((records[1][1], records[0][2]), (0x1004, 0x1008));
    /// ```
    pub fn halt(cycles: u64, source: u64) -> Operation {
        Operation { code: CODE_HALT, cycles, fields: [source, 0, 0, 0] }
    }

    /// A resume: the processor leaves Debug state to this address and level, which may be a higher one than that of the halt.
    /// It is refused with [`REFUSED_HALTED`](crate::REFUSED_HALTED) where the processor is not halted.
    pub fn resume(cycles: u64, target: u64, level: u64) -> Operation {
        Operation { code: CODE_RESUME, cycles, fields: [target, level, 0, 0] }
    }

    /// A freeze: a counter of this group, 0 or 1, overflowed, and the processor's clock shows this count and these offsets. It
    /// sets PAUSED and keeps the time in BRBTS_EL1, where the group's register has FZP, the level is not prohibited, the
    /// processor is not halted and PAUSED is 0; it answers the same where it does not.
    ///
    /// ```
    /// use brb::{Operation, Outcome, Recorder};
    ///
    /// let mut recorder = Recorder::new();
    /// recorder.step(Operation::reset(8, true));
    /// recorder.step(Operation::platform(0, brb::P_EL3_RECORDING));
    /// let control = brb::CONTROL_FZP | brb::control_ts_is(brb::TS_VIRTUAL);
    /// recorder.step(Operation::write(0, brb::REGISTER_BRBCR_EL1, control));
    /// assert!(!recorder.step(Operation::freeze(40, 0, 1000, 1500, 0)).is_refusal());
    /// assert_eq!(recorder.state()[brb::STATE_BRBFCR_EL1], brb::FILTER_PAUSED);
    /// let time = recorder.read(0, brb::REGISTER_BRBTS_EL1);
    /// assert_eq!(time.outcome(), Outcome::Done(1000u64.wrapping_sub(1500)));
    /// ```
    pub fn freeze(cycles: u64, group: u64, physical: u64, virtual_offset: u64, guest_offset: u64) -> Operation {
        Operation { code: CODE_FREEZE, cycles, fields: [group, physical, virtual_offset, guest_offset] }
    }
}
