//! Document 02, Six: the words for a freeze.

/// The counters that one control register governs: group 0 is BRBCR_EL1's, group 1 BRBCR_EL2's.
#[derive(Clone, Copy, Debug, PartialEq, Eq)]
pub enum Group {
    Zero,
    One,
}

impl Group {
    #[inline]
    pub fn from_number(number: u64) -> Option<Group> {
        match number {
            0 => Some(Group::Zero),
            1 => Some(Group::One),
            _ => None,
        }
    }
}

/// TS, bits 6:5 of BRBCR_EL1 or BRBCR_EL2.
#[inline]
pub fn ts(control: u64) -> u64 {
    control >> 5 & 3
}

/// What the processor's clock shows where a counter overflows: any numbers.
#[derive(Clone, Copy, Debug, PartialEq, Eq)]
pub struct Clock {
    pub physical: u64,
    pub virtual_offset: u64,
    pub guest_offset: u64,
}
