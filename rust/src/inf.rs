//! BRBINF taken apart.

use crate::{decoded, inf_cc_of, inf_ccu_of, inf_level_of, inf_mpred_of, inf_type_of, inf_valid_of, Count};

/// The fields of a BRBINF value.
///
/// ```
/// use brb::{Count, Inf, TYPE_CONDDIR, VALID_FULL};
///
/// let inf = Inf::of(0x0000_012c_0000_0843);
/// assert_eq!((inf.valid, inf.kind, inf.level, inf.mispredicted), (VALID_FULL, TYPE_CONDDIR, 1, false));
/// assert_eq!(inf.count(), Some(Count::Known { low: 300, high: 300 }));
/// assert_eq!(Inf::of(0x0000_4000_0000_0043).count(), None);
/// ```
#[derive(Clone, Copy, Debug, PartialEq, Eq)]
pub struct Inf {
    /// VALID: no record, half-target, half-source or full, as [`VALID_FULL`](crate::VALID_FULL).
    pub valid: u64,
    /// MPRED.
    pub mispredicted: bool,
    /// The target level; 0 in a half-source record.
    pub level: u64,
    /// TYPE, as [`TYPE_DIRECT`](crate::TYPE_DIRECT).
    pub kind: u64,
    /// CC, which [`decoded`] decodes; 0 where the count is unknown.
    pub cc: u64,
    /// CCU: the count is unknown.
    pub unknown: bool,
}

impl Inf {
    /// The fields of this value. Bits that belong to no field are not looked at.
    pub const fn of(value: u64) -> Inf {
        Inf {
            valid: inf_valid_of(value),
            mispredicted: inf_mpred_of(value) == 1,
            level: inf_level_of(value),
            kind: inf_type_of(value),
            cc: inf_cc_of(value),
            unknown: inf_ccu_of(value) == 1,
        }
    }

    /// The spread of the cycles between the record before and this one; none where they are unknown.
    pub fn count(self) -> Option<Count> {
        if self.unknown {
            None
        } else {
            decoded(self.cc)
        }
    }
}
