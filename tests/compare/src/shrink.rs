//! A case that fails, made as short and as small as it can be while it still fails.

use std::fmt;
use std::ops::Range;

/// Something that two engines can disagree on.
pub trait Case: Clone + fmt::Display {
    /// Cases that are shorter, or the same with one smaller number, the boldest first.
    fn simpler(&self) -> Box<dyn Iterator<Item = Self> + '_>;
}

/// The smallest case that still fails, as far as single simplifications lead.
pub fn shrink<C: Case>(mut case: C, fails: impl Fn(&C) -> bool) -> C {
    loop {
        let simpler = case.simpler().find(|simpler| fails(simpler));
        match simpler {
            Some(simpler) => case = simpler,
            None => return case,
        }
    }
}

/// Numbers that are smaller than this one: 0, then with ever smaller powers of two taken off.
pub fn smaller(number: u64) -> impl Iterator<Item = u64> {
    let zero = (number > 0).then_some(0);
    let powers = (0..64).rev().map(|n| 1u64 << n);
    zero.into_iter().chain(powers.filter(move |&power| power < number).map(move |power| number - power))
}

/// The same list with one number made smaller.
pub fn with_smaller_number(list: &[u64]) -> impl Iterator<Item = Vec<u64>> + '_ {
    list.iter().enumerate().flat_map(move |(place, &number)| {
        smaller(number).map(move |number| {
            let mut changed = list.to_vec();
            changed[place] = number;
            changed
        })
    })
}

/// The parts of a list of so many members: halves first, single members last.
pub fn parts(members: usize) -> impl Iterator<Item = Range<usize>> {
    let lengths = std::iter::successors(Some(members.div_ceil(2)), |&length| (length > 1).then_some(length / 2));
    let lengths = lengths.filter(|&length| length > 0);
    lengths.flat_map(move |length| (0..members).step_by(length).map(move |start| start..(start + length).min(members)))
}

/// The same list with a part taken out.
pub fn with_part_dropped<T: Clone>(list: &[T]) -> impl Iterator<Item = Vec<T>> + '_ {
    parts(list.len()).map(|part| [&list[..part.start], &list[part.end..]].concat())
}

#[cfg(test)]
mod tests {
    use super::*;

    #[derive(Clone, Debug, PartialEq)]
    struct Numbers(Vec<u64>);

    impl fmt::Display for Numbers {
        fn fmt(&self, f: &mut fmt::Formatter<'_>) -> fmt::Result {
            write!(f, "{:?}", self.0)
        }
    }

    impl Case for Numbers {
        fn simpler(&self) -> Box<dyn Iterator<Item = Self> + '_> {
            Box::new(with_part_dropped(&self.0).chain(with_smaller_number(&self.0)).map(Numbers))
        }
    }

    #[test]
    fn finds_the_smallest_that_fails() {
        let long = Numbers((0..1000).map(|n| n * n * 977).collect());
        let two_large = |case: &Numbers| case.0.iter().filter(|&&number| number >= 12_345).count() >= 2;
        assert_eq!(shrink(long, two_large), Numbers(vec![12_345, 12_345]));
    }
}
