//! Operations with every field at every edge, and with every register, type, level, flag and size.

use crate::{Call, Random};
use model::{own_fields, LAST_CODE};

/// Where numbers of a field end or begin to look otherwise: by bytes of a recording, by digits, and by machine words.
fn edges() -> Vec<u64> {
    let around = |number: u64| [number.wrapping_sub(1), number, number.wrapping_add(1)];
    let groups = (0..10).map(|group| 1 << (7 * group));
    let words = [8, 15, 16, 31, 32, 63].map(|bits| 1 << bits);
    let digits = (0..20).map(|digits| 10u64.pow(digits));
    let hexadecimal = (1..16).map(|digits| 1 << (4 * digits));
    let mut all: Vec<u64> = groups.chain(words).chain(digits).chain(hexadecimal).flat_map(around).collect();
    all.extend([u64::MAX, u64::MAX - 1]);
    all.sort_unstable();
    all.dedup();
    all
}

/// Numbers of a list with some above them, and the same where only the lowest 6, 8, 16 or 32 bits are those.
fn listed(last: u64) -> Vec<u64> {
    let beyond = [6, 8, 16, 32, 63].into_iter().flat_map(|bits| (0..=last).map(move |number| number | 1 << bits));
    (0..=last).chain(beyond).chain([1000, u64::MAX]).collect()
}

/// What a field of an operation is tried with besides the edges: the largest of its list's numbers and some more.
fn last_listed(code: u64, place: usize) -> Option<u64> {
    match (code, place) {
        // Sizes, branch types, exception types.
        (0, 2) | (1 | 2, 2) => Some(66),
        // Registers.
        (5 | 6, 2) => Some(130),
        // Flags, levels and groups.
        (0..=3 | 9, 3) | (3 | 10, 2) => Some(9),
        _ => None,
    }
}

/// Each number of each operation at each edge and at each number of its list, the others anything small or 0.
pub fn operations(random: &mut Random) -> Vec<Call> {
    let mut calls = Vec::new();
    for code in 0..=LAST_CODE {
        for place in 1..2 + own_fields(code).expect("a known code") {
            let numbers = edges().into_iter().chain(last_listed(code, place).into_iter().flat_map(listed));
            calls.extend(numbers.map(|number| {
                let mut call = [code, 0, 0, 0, 0, 0];
                call[1..].iter_mut().for_each(|other| *other = random.below(2) * random.below(100));
                call[place] = number;
                Call(call)
            }));
        }
        calls.extend(edges().into_iter().map(|number| Call([code, number, number, number, number, number])));
    }
    calls
}
