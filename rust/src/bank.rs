//! The bank view: registers of the records, without an operation.

use crate::{c, Answer};

/// BRBINF of record m + 32 × bank in a room, as a buffer of this size shows it with BANK in BRBFCR_EL1. Answers 0 and the
/// register, or 0 and 0 where that record is not below the size; 4 where the size is none of 8, 16, 32 and 64, `bank` is
/// above 3 or `m` above 31; else 7 where `start`, the place of record 0, is not below the size; else 6 where the room is too
/// short for the size. For a state's own size, [start](crate::STATE_START) and BANK the value is what a performed read reads.
///
/// ```
/// use brb::Outcome;
///
/// let room: Vec<u64> = (1000..1192).collect();
/// assert_eq!(brb::bank_inf(&room, 64, 0, 1, 0).outcome(), Outcome::Done(1096));
/// assert_eq!(brb::bank_source(&room, 8, 0, 0, 7).outcome(), Outcome::Done(1022));
/// // From place 6 on, going round: record 2 stands at place 0.
/// assert_eq!(brb::bank_inf(&room, 8, 6, 0, 2).outcome(), Outcome::Done(1000));
/// assert_eq!(brb::bank_target(&room, 8, 0, 0, 8).outcome(), Outcome::Done(0));
/// assert_eq!(brb::bank_inf(&room, 64, 0, 0, 32).outcome(), Outcome::Refused(4));
/// assert_eq!(brb::bank_inf(&room, 8, 8, 0, 0).outcome(), Outcome::Refused(7));
/// assert_eq!(brb::bank_inf(&room[1..], 64, 0, 0, 0).outcome(), Outcome::Refused(6));
/// ```
#[inline]
pub fn bank_inf(room: &[u64], size: u64, start: u64, bank: u64, m: u64) -> Answer {
    // SAFETY: the pointer comes with its slice's own length and is not null, even where that is 0; the room is only read.
    unsafe { c::brb_bank_inf(room.as_ptr(), room.len(), size, start, bank, m) }
}

/// BRBSRC of record m + 32 × bank, as [`bank_inf`].
#[inline]
pub fn bank_source(room: &[u64], size: u64, start: u64, bank: u64, m: u64) -> Answer {
    // SAFETY: as in `bank_inf`.
    unsafe { c::brb_bank_source(room.as_ptr(), room.len(), size, start, bank, m) }
}

/// BRBTGT of record m + 32 × bank, as [`bank_inf`].
#[inline]
pub fn bank_target(room: &[u64], size: u64, start: u64, bank: u64, m: u64) -> Answer {
    // SAFETY: as in `bank_inf`.
    unsafe { c::brb_bank_target(room.as_ptr(), room.len(), size, start, bank, m) }
}
