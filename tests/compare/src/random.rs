/// Random numbers that a seed repeats (SplitMix64).
#[derive(Clone, Debug)]
pub struct Random(u64);

impl Random {
    pub fn new(seed: u64) -> Random {
        Random(seed)
    }

    /// Any 64-bit number.
    pub fn number(&mut self) -> u64 {
        self.0 = self.0.wrapping_add(0x9E37_79B9_7F4A_7C15);
        let mixed = (self.0 ^ (self.0 >> 30)).wrapping_mul(0xBF58_476D_1CE4_E5B9);
        let mixed = (mixed ^ (mixed >> 27)).wrapping_mul(0x94D0_49BB_1331_11EB);
        mixed ^ (mixed >> 31)
    }

    /// A number below `bound`, which is not 0.
    pub fn below(&mut self, bound: u64) -> u64 {
        ((u128::from(self.number()) * u128::from(bound)) >> 64) as u64
    }

    /// True in so many of a hundred cases.
    pub fn percent(&mut self, cases: u64) -> bool {
        self.below(100) < cases
    }

    pub fn one_of<T: Copy>(&mut self, list: &[T]) -> T {
        list[self.below(list.len() as u64) as usize]
    }

    /// A number of a random bit length up to `bits`, so that small ones are as frequent as large ones.
    pub fn of_length(&mut self, bits: u64) -> u64 {
        let length = self.below(bits + 1) as u32;
        self.number().checked_shr(64 - length).unwrap_or(0)
    }

    /// A number of any kind; some would be small ones if their upper bits were lost, in a product too.
    pub fn wide(&mut self, near: u64) -> u64 {
        match self.below(4) {
            0 => self.number(),
            1 => self.of_length(64),
            2 => self.below(2 * near) + (1 << self.below(64)),
            _ => self.one_of(&[u64::MAX / 3 + 1, u64::MAX - 31, u64::MAX, 1 << 59]),
        }
    }
}
