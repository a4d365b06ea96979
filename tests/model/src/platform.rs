use crate::bit;

/// The platform word P (document 01, "Operations", house layout).
#[derive(Clone, Copy, Debug, Default, PartialEq, Eq)]
pub struct Platform(u64);

impl Platform {
    /// Bit 7 and all above 13 must be 0.
    pub const MASK: u64 = 0x3F7F;

    pub fn from_number(number: u64) -> Option<Platform> {
        (number & !Self::MASK == 0).then_some(Platform(number))
    }

    pub fn number(self) -> u64 {
        self.0
    }

    pub fn ns(self) -> bool {
        bit(self.0, 0)
    }

    pub fn eel2(self) -> bool {
        bit(self.0, 1)
    }

    pub fn tge(self) -> bool {
        bit(self.0, 2)
    }

    pub fn e2h(self) -> bool {
        bit(self.0, 3)
    }

    /// Bits 5:4.
    pub fn sbrbe(self) -> u64 {
        self.0 >> 4 & 3
    }

    pub fn el3_recording(self) -> bool {
        bit(self.0, 6)
    }

    pub fn fgten(self) -> bool {
        bit(self.0, 8)
    }

    pub fn n_brbdata_read(self) -> bool {
        bit(self.0, 9)
    }

    pub fn n_brbctl_read(self) -> bool {
        bit(self.0, 10)
    }

    pub fn n_brbctl_write(self) -> bool {
        bit(self.0, 11)
    }

    pub fn n_brbidr(self) -> bool {
        bit(self.0, 12)
    }

    pub fn n_brbiall(self) -> bool {
        bit(self.0, 13)
    }

    /// EL2 is enabled when NS or EEL2 is 1.
    pub fn el2_enabled(self) -> bool {
        self.ns() || self.eel2()
    }
}
