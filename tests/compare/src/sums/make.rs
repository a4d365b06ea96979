//! Random runs of encodings, at any place of a longer list.

use crate::sums::LentRun;
use crate::Random;
use model::count::EXCEEDED;

/// The first encoding past those of known counts.
const PAST: u64 = 0xD00;
/// A part of a run has one encoding more than a number of so many bits, mostly of the first.
const LENGTH_BITS: [u64; 2] = [6, 11];
/// How many of a hundred parts may be long.
const LONG: u64 = 10;
/// At most so many numbers stand before a run, and behind it.
const AROUND: u64 = 4;

/// What a part of a run has.
#[derive(Clone, Copy, PartialEq)]
enum Kind {
    Nothing,
    Known,
    Exceeded,
    Outside,
}

const KINDS: [Kind; 4] = [Kind::Nothing, Kind::Known, Kind::Exceeded, Kind::Outside];

/// The run of this number. Runs take turns in what their two parts have.
pub fn run(random: &mut Random, number: usize) -> LentRun {
    let first = part(random, KINDS[number % KINDS.len()]);
    let second = part(random, KINDS[number / KINDS.len() % KINDS.len()]);
    let first_part = first.len();
    let (before, behind) = (around(random), around(random));
    LentRun { before, encodings: [first, second].concat(), behind, first_part }
}

/// Known counts, with what its kind has put among them. Where some are outside the list, some exceeded every other time.
fn part(random: &mut Random, kind: Kind) -> Vec<u64> {
    if kind == Kind::Nothing {
        return Vec::new();
    }
    let bits = LENGTH_BITS[usize::from(random.percent(LONG))];
    let mut part: Vec<u64> = (0..=random.of_length(bits)).map(|_| known(random)).collect();
    if kind == Kind::Exceeded || kind == Kind::Outside && random.percent(50) {
        put(random, &mut part, |_| EXCEEDED);
    }
    if kind == Kind::Outside {
        put(random, &mut part, outside);
    }
    part
}

/// One or more of these, in place of what is there: at the first place, at the last, or anywhere.
fn put(random: &mut Random, part: &mut [u64], one: fn(&mut Random) -> u64) {
    let last = part.len() - 1;
    match random.below(4) {
        0 => part[0] = one(random),
        1 => part[last] = one(random),
        _ => {
            for _ in 0..=random.below(3) {
                part[random.below(last as u64 + 1) as usize] = one(random);
            }
        }
    }
}

/// The encoding of a known count, at an end of its exponent's more often than by chance.
fn known(random: &mut Random) -> u64 {
    match random.below(8) {
        0 => 256 * random.below(13),
        1 => 256 * random.below(13) + 255,
        _ => random.below(PAST),
    }
}

/// A number that no count is encoded as: between the known ones and the one that exceeded, above that, or with bits above
/// those of an encoding.
fn outside(random: &mut Random) -> u64 {
    match random.below(5) {
        0 => random.one_of(&[PAST, EXCEEDED - 1, EXCEEDED + 1, u64::MAX]),
        1 => PAST + random.below(EXCEEDED - PAST),
        2 => EXCEEDED + 1 + random.of_length(63),
        3 => known(random) | 1 << (14 + random.below(50)),
        _ => EXCEEDED | 1 << (14 + random.below(50)),
    }
}

/// Numbers that are not lent, none of which adds nothing.
fn around(random: &mut Random) -> Vec<u64> {
    let one = |random: &mut Random| match random.below(3) {
        0 => 1 + random.below(PAST - 1),
        1 => EXCEEDED,
        _ => outside(random),
    };
    (0..random.below(AROUND + 1)).map(|_| one(random)).collect()
}
