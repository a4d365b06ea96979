//! The constants of `include/brb.h`, under the same names without `BRB_`. The header's macros of one argument are functions
//! here, in lower case. `tests/constants` holds each of them against the header.

/// Bit n, as a mask.
const fn bit(n: u32) -> u64 {
    1 << n
}

/// The field of bits `high` to `low`, as a mask.
const fn field(high: u32, low: u32) -> u64 {
    (bit(high - low + 1) - 1) << low
}

/// The first part of the version, which grows where a host has to change.
pub const VERSION_MAJOR: u64 = 4;
/// The second part of the version, which grows where something is added or an answer becomes another.
pub const VERSION_MINOR: u64 = 0;
/// The third part of the version.
pub const VERSION_PATCH: u64 = 0;
/// The version as text.
pub const VERSION: &str = "4.0.0";

/// Code of a reset.
pub const CODE_RESET: u64 = 0;
/// Code of a taken branch.
pub const CODE_BRANCH: u64 = 1;
/// Code of an exception.
pub const CODE_EXCEPTION: u64 = 2;
/// Code of an exception return.
pub const CODE_RETURN: u64 = 3;
/// Code of a platform word.
pub const CODE_PLATFORM: u64 = 4;
/// Code of a read of a register.
pub const CODE_READ: u64 = 5;
/// Code of a write of a register.
pub const CODE_WRITE: u64 = 6;
/// Code of BRB IALL.
pub const CODE_IALL: u64 = 7;
/// Code of a halt, the entry to Debug state.
pub const CODE_HALT: u64 = 8;
/// Code of a resume, the exit from Debug state.
pub const CODE_RESUME: u64 = 9;
/// Code of a freeze: a counter overflowed.
pub const CODE_FREEZE: u64 = 10;

/// Done.
pub const DONE: u64 = 0;
/// Accepted; the access is undefined.
pub const UNDEFINED: u64 = 100;
/// Accepted; the access traps to EL2.
pub const TRAP2: u64 = 102;
/// Accepted; the access traps to EL3.
pub const TRAP3: u64 = 103;

/// Refused: a malformed number, in a recording.
pub const REFUSED_MALFORMED: u64 = 1;
/// Refused: an unknown code.
pub const REFUSED_CODE: u64 = 2;
/// Refused: no reset yet, and the operation is none.
pub const REFUSED_NOT_RESET: u64 = 3;
/// Refused: size, flag, type, level, register, P, group or count encoding outside its list.
pub const REFUSED_OUTSIDE_LIST: u64 = 4;
/// Refused: the level does not permit the operation.
pub const REFUSED_LEVEL: u64 = 5;
/// Refused: the room is too short.
pub const REFUSED_ROOM: u64 = 6;
/// Refused: the state is not sound, or too short.
pub const REFUSED_STATE: u64 = 7;
/// Refused: the processor is halted, and the operation is a branch, an exception, a return or a halt; or it is not halted, and
/// the operation is a resume.
pub const REFUSED_HALTED: u64 = 8;
/// Refused: a sum of counts passes 2^64 - 1. [`count_sum`](crate::count_sum) alone gives it.
pub const REFUSED_SUM: u64 = 9;

/// BRBIDR0_EL1, which tells the buffer's size.
pub const REGISTER_BRBIDR0_EL1: u64 = 0;
/// BRBCR_EL1, which controls EL1 and, in most cases, EL0.
pub const REGISTER_BRBCR_EL1: u64 = 1;
/// BRBCR_EL2, which controls EL2.
pub const REGISTER_BRBCR_EL2: u64 = 2;
/// BRBFCR_EL1, the filter.
pub const REGISTER_BRBFCR_EL1: u64 = 3;
/// BRBTS_EL1, the time of the last freeze; it cannot be written.
pub const REGISTER_BRBTS_EL1: u64 = 4;

/// BRBINF of m, from 0 to 31.
pub const fn register_brbinf(m: u64) -> u64 {
    32 + m
}

/// BRBSRC of m, from 0 to 31.
pub const fn register_brbsrc(m: u64) -> u64 {
    64 + m
}

/// BRBTGT of m, from 0 to 31.
pub const fn register_brbtgt(m: u64) -> u64 {
    96 + m
}

/// What BRBIDR0_EL1 reads for a buffer of this size.
pub const fn brbidr0_el1(size: u64) -> u64 {
    0x5000 + size
}

/// How many numbers a state has.
pub const STATE_NUMBERS: usize = 12;
/// Where a state has the current level.
pub const STATE_LEVEL: usize = 0;
/// Where a state has the buffer's size, 0 before the first reset.
pub const STATE_SIZE: usize = 1;
/// Where a state has the flag v1p1.
pub const STATE_V1P1: usize = 2;
/// Where a state has the platform word P.
pub const STATE_P: usize = 3;
/// Where a state has BRBCR_EL1.
pub const STATE_BRBCR_EL1: usize = 4;
/// Where a state has BRBCR_EL2.
pub const STATE_BRBCR_EL2: usize = 5;
/// Where a state has BRBFCR_EL1.
pub const STATE_BRBFCR_EL1: usize = 6;
/// Where a state has the running count.
pub const STATE_COUNT: usize = 7;
/// Where a state says that the next count is unknown.
pub const STATE_UNKNOWN: usize = 8;
/// Where a state says that the processor is halted.
pub const STATE_HALTED: usize = 9;
/// Where a state has BRBTS_EL1.
pub const STATE_BRBTS_EL1: usize = 10;
/// Where a state has the starting number: at which place of the room record 0 stands.
pub const STATE_START: usize = 11;

/// How many numbers the records of a buffer of this size take.
pub const fn room_numbers(size: usize) -> usize {
    3 * size
}

/// The largest size of a buffer, in records.
pub const LARGEST_SIZE: usize = 64;
/// How many numbers the records of the largest buffer take.
pub const LARGEST_ROOM: usize = room_numbers(LARGEST_SIZE);

/// Level EL0.
pub const LEVEL_EL0: u64 = 0;
/// Level EL1.
pub const LEVEL_EL1: u64 = 1;
/// Level EL2.
pub const LEVEL_EL2: u64 = 2;
/// Level EL3.
pub const LEVEL_EL3: u64 = 3;

/// A direct branch without a condition and without a link.
pub const TYPE_DIRECT: u64 = 0;
/// An indirect branch that is neither a call nor a return.
pub const TYPE_INDIRECT: u64 = 1;
/// A direct branch with a link.
pub const TYPE_DIRCALL: u64 = 2;
/// An indirect branch with a link.
pub const TYPE_INDCALL: u64 = 3;
/// A return from a subroutine.
pub const TYPE_RTN: u64 = 5;
/// A direct branch with a condition.
pub const TYPE_CONDDIR: u64 = 8;
/// An exception return, in a record; no operation names it.
pub const TYPE_EXCEPTION_RETURN: u64 = 7;
/// A halt, in a record; no operation names it.
pub const TYPE_DEBUG_HALT: u64 = 0x21;
/// A resume, in a record; no operation names it.
pub const TYPE_DEBUG_EXIT: u64 = 0x39;
/// A call of a higher level.
pub const TYPE_CALL: u64 = 0x22;
/// A trap.
pub const TYPE_TRAP: u64 = 0x23;
/// An SError.
pub const TYPE_SERROR: u64 = 0x24;
/// A debug exception of an instruction.
pub const TYPE_INSTRUCTION_DEBUG: u64 = 0x26;
/// A debug exception of a data access.
pub const TYPE_DATA_DEBUG: u64 = 0x27;
/// A misaligned address.
pub const TYPE_ALIGNMENT: u64 = 0x2A;
/// A fault of an instruction fetch.
pub const TYPE_INSTRUCTION_FAULT: u64 = 0x2B;
/// A fault of a data access.
pub const TYPE_DATA_FAULT: u64 = 0x2C;
/// An IRQ.
pub const TYPE_IRQ: u64 = 0x2E;
/// An FIQ.
pub const TYPE_FIQ: u64 = 0x2F;

/// P: the state is Non-secure.
pub const P_NS: u64 = bit(0);
/// P: EL2 is enabled in Secure state.
pub const P_EEL2: u64 = bit(1);
/// P: exceptions of EL0 go to EL2.
pub const P_TGE: u64 = bit(2);
/// P: EL2 hosts an operating system.
pub const P_E2H: u64 = bit(3);
/// P: where EL3 permits recording and accesses, two bits.
pub const P_SBRBE: u64 = field(5, 4);

/// P with this SBRBE, from 0 to 3, and nothing else.
pub const fn p_sbrbe_is(n: u64) -> u64 {
    n << 4
}

/// P: recording at EL3 is enabled.
pub const P_EL3_RECORDING: u64 = bit(6);
/// P: the traps to EL2 below are enabled.
pub const P_FGTEN: u64 = bit(8);
/// P: reads of records and of BRBTS_EL1 do not trap to EL2.
pub const P_NBRBDATA_READ: u64 = bit(9);
/// P: reads of BRBCR_EL1 and BRBFCR_EL1 do not trap to EL2.
pub const P_NBRBCTL_READ: u64 = bit(10);
/// P: writes of BRBCR_EL1 and BRBFCR_EL1 do not trap to EL2.
pub const P_NBRBCTL_WRITE: u64 = bit(11);
/// P: reads of BRBIDR0_EL1 do not trap to EL2.
pub const P_NBRBIDR: u64 = bit(12);
/// P: BRB IALL does not trap to EL2.
pub const P_NBRBIALL: u64 = bit(13);
/// All bits that P may have.
pub const P_MASK: u64 = 0x3F7F;

/// BRBCR_EL1: recording at EL0.
pub const CONTROL_E0BRE: u64 = bit(0);
/// BRBCR_EL2: recording at EL0, where TGE is 1 and EL2 enabled.
pub const CONTROL_E0HBRE: u64 = bit(0);
/// BRBCR_EL1: recording at EL1.
pub const CONTROL_E1BRE: u64 = bit(1);
/// BRBCR_EL2: recording at EL2.
pub const CONTROL_E2BRE: u64 = bit(1);
/// Counting, where both registers have it.
pub const CONTROL_CC: u64 = bit(3);
/// Mispredictions are shown, where both registers have it.
pub const CONTROL_MPRED: u64 = bit(4);
/// TS, which time a freeze keeps, two bits.
pub const CONTROL_TS: u64 = field(6, 5);
/// FZP: an overflow of group 0 (BRBCR_EL1) or of group 1 (BRBCR_EL2) freezes.
pub const CONTROL_FZP: u64 = bit(8);
/// Exception returns from the level are recorded.
pub const CONTROL_ERTN: u64 = bit(22);
/// Exceptions to the level are recorded.
pub const CONTROL_EXCEPTION: u64 = bit(23);
/// The bits of BRBCR_EL1 and BRBCR_EL2 that a write keeps.
pub const CONTROL_MASK: u64 = 0xC0017B;

/// BRBCR_EL1 or BRBCR_EL2 with this TS, from 0 to 3, and nothing else.
pub const fn control_ts_is(n: u64) -> u64 {
    n << 5
}

/// TS of both registers: the time of a freeze is 0. TS of BRBCR_EL2: that of BRBCR_EL1 decides.
pub const TS_NONE: u64 = 0;
/// TS: the time of a freeze is the physical count less the virtual offset.
pub const TS_VIRTUAL: u64 = 1;
/// TS: the time of a freeze is the physical count less the guest offset.
pub const TS_GUEST: u64 = 2;
/// TS: the time of a freeze is the physical count.
pub const TS_PHYSICAL: u64 = 3;

/// BRBFCR_EL1: nothing is recorded.
pub const FILTER_PAUSED: u64 = bit(7);
/// BRBFCR_EL1: the filter bits say what is left out, and not what is recorded.
pub const FILTER_ENI: u64 = bit(16);
/// The filter bit of [`TYPE_DIRECT`].
pub const FILTER_DIRECT: u64 = bit(17);
/// The filter bit of [`TYPE_INDIRECT`].
pub const FILTER_INDIRECT: u64 = bit(18);
/// The filter bit of [`TYPE_RTN`].
pub const FILTER_RTN: u64 = bit(19);
/// The filter bit of [`TYPE_INDCALL`].
pub const FILTER_INDCALL: u64 = bit(20);
/// The filter bit of [`TYPE_DIRCALL`].
pub const FILTER_DIRCALL: u64 = bit(21);
/// The filter bit of [`TYPE_CONDDIR`].
pub const FILTER_CONDDIR: u64 = bit(22);
/// BRBFCR_EL1: BANK, which of the records the record registers show, two bits.
pub const FILTER_BANK: u64 = field(29, 28);

/// BRBFCR_EL1 with this BANK, from 0 to 3, and nothing else.
pub const fn filter_bank_is(n: u64) -> u64 {
    n << 28
}

/// The bits of BRBFCR_EL1 that a write keeps.
pub const FILTER_MASK: u64 = 0x307F0080;

/// BRBINF: which of the two sides the record has.
pub const INF_VALID: u64 = field(1, 0);
/// BRBINF: mispredicted.
pub const INF_MPRED: u64 = bit(5);
/// BRBINF: the target level.
pub const INF_LEVEL: u64 = field(7, 6);
/// BRBINF: the type.
pub const INF_TYPE: u64 = field(13, 8);
/// BRBINF: the encoded count.
pub const INF_CC: u64 = field(45, 32);
/// BRBINF: the count is unknown.
pub const INF_CCU: u64 = bit(46);

/// VALID of a BRBINF value. [`Inf`](crate::Inf) has all fields by name.
pub const fn inf_valid_of(inf: u64) -> u64 {
    inf & INF_VALID
}

/// MPRED of a BRBINF value.
pub const fn inf_mpred_of(inf: u64) -> u64 {
    (inf & INF_MPRED) >> 5
}

/// The target level of a BRBINF value.
pub const fn inf_level_of(inf: u64) -> u64 {
    (inf & INF_LEVEL) >> 6
}

/// TYPE of a BRBINF value.
pub const fn inf_type_of(inf: u64) -> u64 {
    (inf & INF_TYPE) >> 8
}

/// CC of a BRBINF value.
pub const fn inf_cc_of(inf: u64) -> u64 {
    (inf & INF_CC) >> 32
}

/// CCU of a BRBINF value.
pub const fn inf_ccu_of(inf: u64) -> u64 {
    (inf & INF_CCU) >> 46
}

/// No record.
pub const VALID_NONE: u64 = 0;
/// A record of the target alone.
pub const VALID_HALF_TARGET: u64 = 1;
/// A record of the source alone.
pub const VALID_HALF_SOURCE: u64 = 2;
/// A record of both sides.
pub const VALID_FULL: u64 = 3;

/// The largest known count.
pub const COUNT_LARGEST: u64 = 1_048_575;
/// What the running count stops at: the smallest count that exceeded, which is `low` of
/// [`count_decode`](crate::count_decode) for one that did.
pub const COUNT_EXCEEDED: u64 = 1_048_576;
/// The CC of a count that exceeded.
pub const CC_EXCEEDED: u64 = 0x3FFF;

/// How many numbers an operation of a recording is read into: code, cycles and four fields.
pub const OPERATION_NUMBERS: usize = 6;
/// How many bytes a number of a recording has at most.
pub const NUMBER_BYTES: usize = 10;
/// How many bytes an operation of a recording has at most.
pub const OPERATION_BYTES: usize = 60;

/// How many numbers an answer of a [`batch`](crate::batch()) has: its number and its value.
pub const ANSWER_NUMBERS: usize = 2;

/// How many numbers are enough for the answers of any run of so many bytes.
pub const fn batch_numbers(length: usize) -> usize {
    length + 1
}

/// Neither of two recordings.
pub const NEITHER: u64 = 0;
/// The first of two recordings.
pub const FIRST: u64 = 1;
/// The second of two recordings.
pub const SECOND: u64 = 2;
/// The codes of two operations differ.
pub const DIFFERING_CODE: u64 = 0x1;
/// Their cycles differ.
pub const DIFFERING_CYCLES: u64 = 0x2;
/// Their fields a differ.
pub const DIFFERING_A: u64 = 0x4;
/// Their fields b differ.
pub const DIFFERING_B: u64 = 0x8;
/// Their fields c differ.
pub const DIFFERING_C: u64 = 0x10;
/// Their fields d differ.
pub const DIFFERING_D: u64 = 0x20;
