//! What the model holds between two operations, the records aside.

use crate::{bit, count, Level, Platform};

/// Document 01, "Operations": the bits that a write of register 1 or 2 keeps.
pub const CONTROL_MASK: u64 = 0xC0017B;
/// The bits that a write of register 3 keeps.
pub const FILTER_MASK: u64 = 0x307F0080;
/// PAUSED, bit 7 of register 3.
pub const PAUSED: u64 = 0x80;

/// A sound state. A size of 0 says that there was no reset yet.
#[derive(Clone, Copy, Debug, PartialEq, Eq)]
pub struct State {
    pub level: Level,
    pub size: usize,
    pub v1p1: bool,
    pub platform: Platform,
    /// BRBCR_EL1
    pub cr1: u64,
    /// BRBCR_EL2
    pub cr2: u64,
    /// BRBFCR_EL1
    pub fcr: u64,
    /// The running count, never above [`count::LIMIT`].
    pub count: u64,
    /// Whether an occasion came since the last record, or no record was made since the reset.
    pub unknown: bool,
    /// Whether the processor is halted (document 02, Five). The level is then that of the halt.
    pub halted: bool,
    /// BRBTS_EL1, the time of the last freeze (document 02, Six): any number.
    pub time: u64,
    /// The place of the room at which record 0 stands (document 02, Seven): below the size, and 0 before a reset.
    pub start: usize,
}

impl State {
    /// How many numbers hold a state.
    pub const NUMBERS: usize = 12;

    /// The state's numbers, in the order of `docs/DECISIONS.md`, point 21; the start is the last (`docs/MANUAL.md`, "State
    /// and room").
    #[inline]
    pub fn store(&self, numbers: &mut [u64]) {
        numbers[..Self::NUMBERS].copy_from_slice(&[
            self.level.number(),
            self.size as u64,
            u64::from(self.v1p1),
            self.platform.number(),
            self.cr1,
            self.cr2,
            self.fcr,
            self.count,
            u64::from(self.unknown),
            u64::from(self.halted),
            self.time,
            self.start as u64,
        ]);
    }

    /// Adds cycles to the running count, which stops at its limit.
    #[inline]
    pub fn count_on(&mut self, cycles: u64) {
        self.count = self.count.saturating_add(cycles).min(count::LIMIT);
    }

    /// Bit 3 of both control registers.
    #[inline]
    pub fn counting(&self) -> bool {
        bit(self.cr1, 3) && bit(self.cr2, 3)
    }

    /// Bit 4 of both control registers.
    #[inline]
    pub fn shows_misprediction(&self) -> bool {
        bit(self.cr1, 4) && bit(self.cr2, 4)
    }

    #[inline]
    pub fn paused(&self) -> bool {
        self.fcr & PAUSED != 0
    }

    /// Bits 29:28 of BRBFCR_EL1.
    #[inline]
    pub fn bank(&self) -> usize {
        (self.fcr >> 28 & 3) as usize
    }

    /// Whether recording at EL3 is on.
    #[inline]
    pub fn records_el3(&self) -> bool {
        self.v1p1 && self.platform.el3_recording()
    }
}

/// A reset's size is 8, 16, 32 or 64.
#[inline]
pub fn buffer_size(number: u64) -> Option<usize> {
    matches!(number, 8 | 16 | 32 | 64).then_some(number as usize)
}
