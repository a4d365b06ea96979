//! Document 01, "Access outcomes", last paragraph: what a view of one bank of the lent records is asked. Its rules stand with
//! the others ([`Rules::bank_shows`](crate::Rules::bank_shows)).

use std::fmt;

/// A register of a record, without a state: any numbers.
#[derive(Clone, Copy, Debug, PartialEq, Eq)]
pub struct Asked {
    pub size: u64,
    /// The place at which record 0 stands (document 02, Seven).
    pub start: u64,
    pub bank: u64,
    pub m: u64,
}

impl Asked {
    /// The number of the record, where bank and m are inside their lists.
    #[inline]
    pub fn record(&self) -> u64 {
        self.m + 32 * self.bank
    }
}

impl fmt::Display for Asked {
    fn fmt(&self, f: &mut fmt::Formatter<'_>) -> fmt::Result {
        let Asked { size, start, bank, m } = self;
        write!(f, "size {size}, start {start}, bank {bank}, m {m}")
    }
}

#[cfg(test)]
mod tests {
    use super::*;
    use crate::{Document01, Part, Refusal, Rules};

    fn shows(room: &[u64], [size, start, bank, m]: [u64; 4], part: Part) -> Result<u64, Refusal> {
        Document01.bank_shows(room, Asked { size, start, bank, m }, part)
    }

    #[test]
    fn shows_its_part_and_no_other() {
        let room: Vec<u64> = (1000..1192).collect();
        assert_eq!(shows(&room, [64, 0, 1, 0], Part::Inf), Ok(1096));
        assert_eq!(shows(&room, [64, 0, 1, 31], Part::Target), Ok(1191));
        assert_eq!(shows(&room, [64, 0, 2, 0], Part::Inf), Ok(0));
        assert_eq!(shows(&room, [8, 0, 0, 8], Part::Inf), Ok(0));
        assert_eq!(shows(&room, [8, 0, 0, 7], Part::Source), Ok(1022));
    }

    /// With start 6 records 0 and 1 are the last two of eight places, and record 2 stands at the first.
    #[test]
    fn goes_round() {
        let room: Vec<u64> = (1000..1192).collect();
        assert_eq!(shows(&room, [8, 6, 0, 0], Part::Inf), Ok(1018));
        assert_eq!(shows(&room, [8, 6, 0, 1], Part::Target), Ok(1023));
        assert_eq!(shows(&room, [8, 6, 0, 2], Part::Inf), Ok(1000));
        assert_eq!(shows(&room, [8, 6, 0, 7], Part::Source), Ok(1016));
        assert_eq!(shows(&room, [8, 6, 0, 8], Part::Inf), Ok(0));
        assert_eq!(shows(&room, [64, 63, 0, 0], Part::Inf), Ok(1189));
        assert_eq!(shows(&room, [64, 63, 1, 31], Part::Inf), Ok(1186), "record 63 at place 62");
        assert_eq!(shows(&room, [64, 32, 1, 0], Part::Inf), Ok(1000), "record 32 at place 0");
    }

    #[test]
    fn refuses_4_then_7_then_6() {
        for outside in [[0, 0, 0, 0], [9, 0, 0, 0], [128, 0, 0, 0], [8, 0, 4, 0], [8, 0, 0, 32], [8, 8, 4, 0]] {
            assert_eq!(shows(&[], outside, Part::Inf), Err(Refusal::OutsideList), "{outside:?}");
        }
        for (size, start) in [(8, 8), (8, 9), (8, 63), (16, 16), (32, 63), (64, 64), (64, u64::MAX)] {
            for room in [0, 192] {
                let refused = shows(&vec![0; room], [size, start, 3, 31], Part::Inf);
                assert_eq!(refused, Err(Refusal::NotSound), "size {size}, start {start}, room of {room}");
            }
        }
        assert_eq!(shows(&[0; 23], [8, 7, 0, 0], Part::Inf), Err(Refusal::RoomTooShort));
        assert_eq!(shows(&[0; 24], [8, 7, 0, 0], Part::Inf), Ok(0));
    }
}
