//! Where two recordings part, in plain Rust, as well as we can write it: both are read in lockstep, number by number, with the
//! library's checks, and to their ends. It says how near the library comes to what can be had. It is no judge of what is right: its
//! answers are compared with the library's.

use crate::tight::{number_at, FIELDS};

/// The nine numbers of `struct brb_parting`.
pub type Nine = [u64; 9];

#[inline(never)]
pub fn compare(first: &[u8], second: &[u8]) -> Nine {
    let (mut a, mut b, mut equal, mut differing) = (0, 0, 0, 0);
    while a < first.len() && b < second.len() && differing == 0 {
        let Some((unequal, after_a, after_b)) = pair_at(first, a, second, b) else {
            return refused(first, a, second, b);
        };
        (a, b, differing) = (after_a, after_b, unequal);
        equal += u64::from(unequal == 0);
    }
    // Behind an unequal pair nothing is compared, and all is read.
    while a < first.len() && b < second.len() {
        let (Some(after_a), Some(after_b)) = (operation_end(first, a), operation_end(second, b)) else {
            return refused(first, a, second, b);
        };
        (a, b) = (after_a, after_b);
    }
    let (ends_first, rest_of, rest_at, longer) = match (a < first.len(), b < second.len()) {
        (false, false) => return [0, 0, 0, equal, 0, differing, 1, a as u64, 0],
        (false, true) => (1, 2, b, second),
        (true, _) => (2, 1, a, first),
    };
    match bad_from(longer, rest_at) {
        Some((number, at)) => [number, rest_of, at as u64, 0, 0, 0, 0, 0, 0],
        None => [0, 0, 0, equal, ends_first, differing, rest_of, rest_at as u64, (longer.len() - rest_at) as u64],
    }
}

/// What differs in the operations at two places, by bits, and the places after them; none where one cannot be read.
#[inline(always)]
fn pair_at(first: &[u8], a: usize, second: &[u8], b: usize) -> Option<(u64, usize, usize)> {
    let (one, mut a) = number_at(first, a)?;
    let (other, mut b) = number_at(second, b)?;
    let fields = *FIELDS.get(one as usize)?;
    if one != other {
        let others = *FIELDS.get(other as usize)?;
        return Some((1, numbers_end(first, a, 1 + fields)?, numbers_end(second, b, 1 + others)?));
    }
    let mut differing = 0;
    for place in 1..2 + fields {
        let (one, after_a) = number_at(first, a)?;
        let (other, after_b) = number_at(second, b)?;
        differing |= u64::from(one != other) << place;
        (a, b) = (after_a, after_b);
    }
    Some((differing, a, b))
}

/// The place after so many numbers.
#[inline(always)]
fn numbers_end(bytes: &[u8], mut at: usize, numbers: u8) -> Option<usize> {
    for _ in 0..numbers {
        (_, at) = number_at(bytes, at)?;
    }
    Some(at)
}

/// The place after an operation; none where it cannot be read.
#[inline(always)]
fn operation_end(bytes: &[u8], at: usize) -> Option<usize> {
    let (code, at) = number_at(bytes, at)?;
    numbers_end(bytes, at, 1 + *FIELDS.get(code as usize)?)
}

/// What the first bad number is refused with, from an operation on, and where it starts.
fn bad_from(bytes: &[u8], mut at: usize) -> Option<(u64, usize)> {
    while at < bytes.len() {
        match operation_end(bytes, at) {
            Some(after) => at = after,
            None => return Some(bad_of(bytes, at)),
        }
    }
    None
}

/// The same of an operation that cannot be read.
#[cold]
fn bad_of(bytes: &[u8], at: usize) -> (u64, usize) {
    let Some((code, mut next)) = number_at(bytes, at) else { return (1, at) };
    if code as usize >= FIELDS.len() {
        return (2, at);
    }
    while let Some((_, after)) = number_at(bytes, next) {
        next = after;
    }
    (1, next)
}

/// The first's bad number, or else the second's: one of them has one, at these operations or behind them.
#[cold]
fn refused(first: &[u8], a: usize, second: &[u8], b: usize) -> Nine {
    let of_first = bad_from(first, a).map(|bad| (1, bad));
    let (which, (number, at)) = of_first.or_else(|| bad_from(second, b).map(|bad| (2, bad))).expect("one is bad");
    [number, which, at as u64, 0, 0, 0, 0, 0, 0]
}
