/// An exception level.
#[derive(Clone, Copy, Debug, PartialEq, Eq, PartialOrd, Ord)]
pub enum Level {
    EL0,
    EL1,
    EL2,
    EL3,
}

impl Level {
    pub const ALL: [Level; 4] = [Level::EL0, Level::EL1, Level::EL2, Level::EL3];

    /// Document 01, "Operations": levels are 0 to 3.
    #[inline]
    pub fn from_number(number: u64) -> Option<Level> {
        match number {
            0 => Some(Level::EL0),
            1 => Some(Level::EL1),
            2 => Some(Level::EL2),
            3 => Some(Level::EL3),
            _ => None,
        }
    }

    #[inline]
    pub fn number(self) -> u64 {
        self as u64
    }
}
