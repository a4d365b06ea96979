//! Document 01, "Cycles", and document 02, Four: how a count stands in BRBINF's field CC, and which counts a CC, or a run of
//! them, may stand for.

use crate::{Document01, Refusal};

/// Where the running count stops.
pub const LIMIT: u64 = 1 << 20;
/// The largest count that the 20-bit counter shows.
pub const LARGEST: u64 = LIMIT - 1;
/// The encoding of every larger one.
pub const EXCEEDED: u64 = 0x3FFF;

/// CC is 256E + M, rounded down.
#[inline]
pub fn encode(count: u64) -> u64 {
    match count {
        0..=255 => count,
        256..=LARGEST => {
            let bit_length = u64::from(u64::BITS - count.leading_zeros());
            let exponent = bit_length - 8;
            let mantissa = (count >> (exponent - 1)) - 256;
            256 * exponent + mantissa
        }
        _ => EXCEEDED,
    }
}

/// The smallest and the largest of the counts that share an encoding, or of the sums of such counts. Where something
/// exceeded the counter there is no upper end, and so no largest.
#[derive(Clone, Copy, Debug, PartialEq, Eq)]
pub struct Spread {
    pub smallest: u64,
    pub largest: Option<u64>,
}

/// The rules of spreads and of their sums, one method a rule. A test that wants to know whether an error would be found
/// overrides one.
pub trait Counts {
    // ---------------------------------------------------------------------------------------------------------------
    // One encoding

    /// The spread of an encoding; 4 where no count has it.
    fn decode(&self, cc: u64) -> Result<Spread, Refusal> {
        let (exponent, mantissa) = (cc / 256, cc % 256);
        match exponent {
            0 => Ok(self.unshared(mantissa)),
            1..=12 => Ok(self.shared(exponent, mantissa)),
            _ if cc == EXCEEDED => Ok(self.exceeded()),
            _ => Err(Refusal::OutsideList),
        }
    }

    /// E 0: the mantissa is the count, and no other count has the encoding.
    fn unshared(&self, mantissa: u64) -> Spread {
        Spread { smallest: mantissa, largest: Some(mantissa) }
    }

    /// E 1 to 12: the encoding was rounded down to its smallest count.
    fn shared(&self, exponent: u64, mantissa: u64) -> Spread {
        let smallest = (256 + mantissa) << (exponent - 1);
        Spread { smallest, largest: Some(self.largest(smallest, exponent)) }
    }

    /// What rounding took away is below 2^(E-1).
    fn largest(&self, smallest: u64, exponent: u64) -> u64 {
        smallest + (1 << (exponent - 1)) - 1
    }

    /// The smallest count that exceeded is the one at which the running count stops; a largest there is not.
    fn exceeded(&self) -> Spread {
        Spread { smallest: LIMIT, largest: None }
    }

    // ---------------------------------------------------------------------------------------------------------------
    // A run of encodings

    /// Both ends of the sum of a run's counts. 4 comes first, wherever in the run its encoding stands; 9 comes last.
    fn sum(&self, run: &[u64]) -> Result<Spread, Refusal> {
        let spreads = self.spreads(run)?;
        self.judged(self.sum_of_smallest(&spreads), self.sum_of_largest(&spreads))
    }

    /// The spread of each encoding; 4 where one of them is outside its list.
    fn spreads(&self, run: &[u64]) -> Result<Vec<Spread>, Refusal> {
        run.iter().map(|&cc| self.decode(cc)).collect()
    }

    /// Those that exceeded are in it too, each with its smallest count.
    fn sum_of_smallest(&self, spreads: &[Spread]) -> u128 {
        spreads.iter().map(|spread| u128::from(spread.smallest)).sum()
    }

    /// None where one has no upper end. No spreads at all have one: they add up to 0 (`docs/DECISIONS.md`, point 44).
    fn sum_of_largest(&self, spreads: &[Spread]) -> Option<u128> {
        spreads.iter().map(|spread| spread.largest.map(u128::from)).sum()
    }

    /// 9: one of the sums that are to be answered passes 2^64 - 1. Where there is no upper end, none is judged (point 43).
    fn judged(&self, smallest: u128, largest: Option<u128>) -> Result<Spread, Refusal> {
        let answered = |sum: u128| u64::try_from(sum).map_err(|_| Refusal::SumTooLarge);
        Ok(Spread { smallest: answered(smallest)?, largest: largest.map(answered).transpose()? })
    }

    // ---------------------------------------------------------------------------------------------------------------
    // What is answered

    /// Four numbers: a refusal or 0, the smallest, the largest, and whether there is an upper end. What there is not is 0
    /// (point 42).
    fn numbers(&self, spread: Result<Spread, Refusal>) -> [u64; 4] {
        match spread {
            Ok(Spread { smallest, largest: Some(largest) }) => [0, smallest, largest, 1],
            Ok(Spread { smallest, largest: None }) => [0, smallest, 0, 0],
            Err(refusal) => [refusal as u64, 0, 0, 0],
        }
    }
}

impl Counts for Document01 {}

#[cfg(test)]
mod tests {
    use super::*;

    /// The first encoding past those of known counts.
    const PAST: u64 = 0xD00;

    /// Both ends of an encoding that has them.
    fn ends(cc: u64) -> (u64, u64) {
        match Document01.decode(cc) {
            Ok(Spread { smallest, largest: Some(largest) }) => (smallest, largest),
            other => panic!("{cc:#x} has no two ends: {other:?}"),
        }
    }

    fn decoded(cc: u64) -> [u64; 4] {
        Document01.numbers(Document01.decode(cc))
    }

    fn summed(run: &[u64]) -> [u64; 4] {
        Document01.numbers(Document01.sum(run))
    }

    /// The marked cases P1 to P8.
    #[test]
    fn marked_cases() {
        let marked =
            [(0, 0), (255, 0xFF), (256, 0x100), (511, 0x1FF), (513, 0x200), (1_048_575, 0xCFF), (1_048_576, 0x3FFF)];
        for (count, cc) in marked {
            assert_eq!(encode(count), cc, "count {count}");
        }
        assert_eq!(ends(0xCFF), (1_046_528, 1_048_575));
    }

    #[test]
    fn a_count_lies_in_the_spread_of_its_encoding() {
        for count in 0..=LARGEST {
            let (smallest, largest) = ends(encode(count));
            assert!(smallest <= count && count <= largest, "count {count} in {smallest} to {largest}");
        }
    }

    #[test]
    fn a_decoded_count_is_near_below() {
        for count in 0..=LARGEST {
            let (shown, _) = ends(encode(count));
            assert!(shown <= count && 256 * (count - shown) <= shown, "count {count} shown as {shown}");
        }
    }

    #[test]
    fn a_spread_has_the_counts_of_its_encoding_and_no_others() {
        for cc in 0..PAST {
            let (smallest, largest) = ends(cc);
            assert_eq!((encode(smallest), encode(largest)), (cc, cc), "the ends of {cc:#x}");
            assert_ne!(encode(largest + 1), cc, "past the largest of {cc:#x}");
            assert!(smallest == 0 || encode(smallest - 1) != cc, "below the smallest of {cc:#x}");
        }
    }

    /// One after another the spreads are all the counts, each once.
    #[test]
    fn neighbouring_spreads_leave_nothing_out() {
        let mut next = 0;
        for cc in 0..PAST {
            let (smallest, largest) = ends(cc);
            assert_eq!(smallest, next, "{cc:#x}");
            next = largest + 1;
        }
        assert_eq!(next, LIMIT);
    }

    #[test]
    fn every_encoding_is_known_exceeded_or_refused() {
        for cc in 0..0x1_0000 {
            match Document01.decode(cc) {
                Ok(Spread { largest: Some(_), .. }) => assert!(cc < PAST, "{cc:#x}"),
                Ok(Spread { smallest, largest: None }) => assert_eq!((cc, smallest), (0x3FFF, 1_048_576)),
                Err(refusal) => assert!(cc >= PAST && refusal == Refusal::OutsideList, "{cc:#x}"),
            }
        }
        assert_eq!(Document01.decode(u64::MAX), Err(Refusal::OutsideList));
        assert_eq!(encode(u64::MAX), EXCEEDED);
    }

    #[test]
    fn four_numbers_are_answered() {
        assert_eq!(decoded(0), [0, 0, 0, 1]);
        assert_eq!(decoded(0xFF), [0, 255, 255, 1]);
        assert_eq!(decoded(0x100), [0, 256, 256, 1]);
        assert_eq!(decoded(0x200), [0, 512, 513, 1]);
        assert_eq!(decoded(0x7C4), [0, 28_928, 28_991, 1]);
        assert_eq!(decoded(0x3FFF), [0, 1_048_576, 0, 0]);
        assert_eq!(decoded(PAST), [4, 0, 0, 0]);
        assert_eq!(Document01.numbers(Err(Refusal::SumTooLarge)), [9, 0, 0, 0]);
    }

    #[test]
    fn both_ends_of_a_sum() {
        assert_eq!(summed(&[]), [0, 0, 0, 1]);
        assert_eq!(summed(&[0, 0]), [0, 0, 0, 1]);
        assert_eq!(summed(&[0x7C4, 0x12C]), [0, 29_228, 29_291, 1]);
        assert_eq!(summed(&[0xCFF; 5000]), [0, 5000 * 1_046_528, 5000 * 1_048_575, 1]);
        for cc in (0..0x1_0000).chain([u64::MAX]) {
            assert_eq!(summed(&[cc]), decoded(cc), "{cc:#x} alone");
        }
    }

    #[test]
    fn one_that_exceeded_takes_the_upper_end_away() {
        assert_eq!(summed(&[EXCEEDED]), [0, 1_048_576, 0, 0]);
        assert_eq!(summed(&[EXCEEDED, 0x7C4]), [0, 1_048_576 + 28_928, 0, 0]);
        assert_eq!(summed(&[0x7C4, EXCEEDED, 1, EXCEEDED]), [0, 28_928 + 1 + 2 * 1_048_576, 0, 0]);
    }

    #[test]
    fn an_encoding_outside_the_list_is_4_wherever_it_stands() {
        for run in [&[PAST][..], &[PAST, 1], &[1, PAST], &[1, PAST, 1], &[EXCEEDED, PAST], &[PAST, EXCEEDED]] {
            assert_eq!(summed(run), [4, 0, 0, 0], "{run:x?}");
        }
    }

    #[test]
    fn nine_judges_what_would_be_answered() {
        let (fits, passes) = (u128::from(u64::MAX), 1 << 64);
        assert_eq!(Document01.judged(fits, Some(fits)), Ok(Spread { smallest: u64::MAX, largest: Some(u64::MAX) }));
        assert_eq!(Document01.judged(fits, None), Ok(Spread { smallest: u64::MAX, largest: None }));
        for (smallest, largest) in [(passes, Some(passes)), (fits, Some(passes)), (0, Some(passes)), (passes, None)] {
            assert_eq!(Document01.judged(smallest, largest), Err(Refusal::SumTooLarge), "{smallest} {largest:?}");
        }
    }

    /// Spreads so wide that two of them have a sum that passes 2^64 - 1: a run that does so in earnest cannot be made.
    struct Wide;

    impl Counts for Wide {
        fn unshared(&self, mantissa: u64) -> Spread {
            Spread { smallest: mantissa, largest: Some(u64::MAX) }
        }
    }

    #[test]
    fn nine_comes_last() {
        assert_eq!(Wide.sum(&[0]), Ok(Spread { smallest: 0, largest: Some(u64::MAX) }));
        assert_eq!(Wide.sum(&[0, 1]), Err(Refusal::SumTooLarge));
        assert_eq!(Wide.sum(&[0, 1, PAST]), Err(Refusal::OutsideList), "4 behind a sum that passes it");
        assert_eq!(Wide.sum(&[0, 1, EXCEEDED]), Ok(Spread { smallest: 1 + LIMIT, largest: None }), "no upper end");
    }
}
