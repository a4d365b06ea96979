//! Document 02, Eight, and `docs/MANUAL.md`, "Comparing recordings": where two recordings part.

use crate::recording::Stop;
use crate::{own_fields, Document01, Recordings};
use std::cmp::Ordering;
use std::ops::Range;

/// One of the two recordings, by its number in an answer.
#[derive(Clone, Copy, Debug, PartialEq, Eq)]
pub enum Which {
    First = 1,
    Second = 2,
}

impl Which {
    pub const BOTH: [Which; 2] = [Which::First, Which::Second];

    pub fn other(self) -> Which {
        match self {
            Which::First => Which::Second,
            Which::Second => Which::First,
        }
    }

    /// This one of two.
    pub fn of<T>(self, [first, second]: [T; 2]) -> T {
        match self {
            Which::First => first,
            Which::Second => second,
        }
    }
}

/// An operation of a recording as six numbers, 0 beyond its own fields, and the place after it.
#[derive(Clone, Copy, Debug, PartialEq, Eq)]
pub struct Placed {
    pub numbers: [u64; 6],
    pub end: usize,
}

/// What a recording holds.
#[derive(Clone, Debug, PartialEq, Eq)]
pub struct Held {
    /// Its operations, to its end or to its first bad number.
    pub operations: Vec<Placed>,
    /// Its first bad number.
    pub bad: Option<Stop>,
    /// How many bytes it has.
    pub length: usize,
}

impl Held {
    /// The place after so many of its operations.
    pub fn after(&self, operations: usize) -> usize {
        operations.checked_sub(1).map_or(0, |last| self.operations[last].end)
    }
}

/// A recording that cannot be read, and its first bad number.
#[derive(Clone, Copy, Debug, PartialEq, Eq)]
pub struct Unreadable {
    pub which: Which,
    pub stop: Stop,
}

/// Where two recordings part that can be read.
#[derive(Clone, Debug, PartialEq, Eq)]
pub struct Parting {
    /// How many operations are equal at the front.
    pub equal: usize,
    /// None where both have as many operations.
    pub ends_first: Option<Which>,
    /// What differs in the first unequal pair, by bits; 0 where no pair is unequal.
    pub differing: u64,
    pub rest_of: Which,
    /// Which part of that recording the rest is.
    pub rest: Range<usize>,
}

/// The rules of a comparison, one method a rule. A test that wants to know whether an error would be found overrides one.
pub trait Comparisons: Recordings {
    /// Both are read to their ends. Bad input anywhere in either: only that is told.
    fn compare(&self, first: &[u8], second: &[u8]) -> Result<Parting, Unreadable> {
        let held = [self.held(first), self.held(second)];
        match self.unreadable(&held) {
            Some(unreadable) => Err(unreadable),
            None => Ok(self.parting(&held)),
        }
    }

    // ---------------------------------------------------------------------------------------------------------------
    // What a recording holds

    /// Its operations, one after another from the first byte on, to its end or to its first bad number. "A recording of no
    /// bytes holds no operations."
    fn held(&self, bytes: &[u8]) -> Held {
        let (mut operations, mut at) = (Vec::new(), 0);
        while at < bytes.len() {
            match self.read_operation(bytes, at) {
                Ok((numbers, end)) => {
                    operations.push(Placed { numbers, end });
                    at = end;
                }
                Err(stop) => {
                    let stop = Stop { at: self.bad_at(stop, at, bytes.len()), ..stop };
                    return Held { operations, bad: Some(stop), length: bytes.len() };
                }
            }
        }
        Held { operations, bad: None, length: bytes.len() }
    }

    /// "The byte where its first bad number starts (its length if a number is missing)": where reading stopped, of an
    /// operation that starts at `operation`, in a recording of this length.
    fn bad_at(&self, stop: Stop, _operation: usize, _length: usize) -> usize {
        stop.at
    }

    /// "The first recording's if both have one", wherever they stand, and whatever stands before them.
    fn unreadable(&self, held: &[Held; 2]) -> Option<Unreadable> {
        let of = |which: Which| which.of(held.each_ref()).bad.map(|stop| Unreadable { which, stop });
        of(Which::First).or(of(Which::Second))
    }

    // ---------------------------------------------------------------------------------------------------------------
    // A pair of operations

    /// What differs in two operations, by bits: "code alone if codes differ", else the cycles and their own fields.
    fn differing(&self, one: [u64; 6], other: [u64; 6]) -> u64 {
        if self.differs(one[0], other[0]) {
            return self.of_other_codes(one, other);
        }
        let differing = self.compared(one[0]).filter(|&place| self.differs(one[place], other[place]));
        differing.map(|place| self.bit_of(place)).sum()
    }

    /// Where the codes differ the other numbers have different meanings, and nothing is told of them.
    fn of_other_codes(&self, _one: [u64; 6], _other: [u64; 6]) -> u64 {
        self.bit_of(0)
    }

    /// Which of the six numbers are compared of two operations of this code: the cycles, and the fields that it has.
    fn compared(&self, code: u64) -> Range<usize> {
        1..2 + own_fields(code).expect("it was read")
    }

    fn differs(&self, one: u64, other: u64) -> bool {
        one != other
    }

    /// "Bit 0 code, bit 1 cycles, bits 2 to 5 the fields in order", by a number's place among the six.
    fn bit_of(&self, place: usize) -> u64 {
        1 << place
    }

    // ---------------------------------------------------------------------------------------------------------------
    // Two recordings that can be read

    fn parting(&self, held: &[Held; 2]) -> Parting {
        let (equal, ends_first, rest_of) = (self.equal(held), self.ends_first(held), self.rest_of(held));
        let differing = self.first_unequal(held).map_or(0, |[one, other]| self.differing(one, other));
        Parting { equal, ends_first, differing, rest_of, rest: self.rest(held, rest_of) }
    }

    /// The operations of the two, as far as both have one.
    fn pairs(&self, [first, second]: &[Held; 2]) -> Vec<[[u64; 6]; 2]> {
        let both = first.operations.iter().zip(&second.operations);
        both.map(|(one, other)| [one.numbers, other.numbers]).collect()
    }

    /// "All before are equal, and the next pair is not, or one recording has ended."
    fn equal(&self, held: &[Held; 2]) -> usize {
        self.pairs(held).into_iter().take_while(|&[one, other]| self.differing(one, other) == 0).count()
    }

    fn first_unequal(&self, held: &[Held; 2]) -> Option<[[u64; 6]; 2]> {
        self.pairs(held).into_iter().find(|&[one, other]| self.differing(one, other) != 0)
    }

    /// That with fewer operations, "also behind an unequal pair"; none where both have as many.
    fn ends_first(&self, [first, second]: &[Held; 2]) -> Option<Which> {
        match first.operations.len().cmp(&second.operations.len()) {
            Ordering::Less => Some(Which::First),
            Ordering::Equal => None,
            Ordering::Greater => Some(Which::Second),
        }
    }

    /// The longer one, "by operations and not by bytes"; the first "where both have as many".
    fn rest_of(&self, [first, second]: &[Held; 2]) -> Which {
        if first.operations.len() >= second.operations.len() {
            Which::First
        } else {
            Which::Second
        }
    }

    /// All of it "after as many operations as the shorter has".
    fn rest(&self, held: &[Held; 2], of: Which) -> Range<usize> {
        let [longer, other] = [of, of.other()].map(|which| which.of(held.each_ref()));
        longer.after(other.operations.len())..longer.length
    }

    // ---------------------------------------------------------------------------------------------------------------
    // What is answered

    /// Nine numbers: the refusal or 0, whose bad number it is, where it starts; how many are equal, which ends first, what
    /// differs; whose rest it is, where it starts, how many bytes it has. All but the first three are 0 on a refusal, and
    /// those three without one.
    fn nine_numbers(&self, compared: &Result<Parting, Unreadable>) -> [u64; 9] {
        match compared {
            Err(Unreadable { which, stop }) => [stop.refusal as u64, *which as u64, stop.at as u64, 0, 0, 0, 0, 0, 0],
            Ok(Parting { equal, ends_first, differing, rest_of, rest }) => {
                let ends_first = ends_first.map_or(0, |which| which as u64);
                let rest_at = rest.start as u64;
                [0, 0, 0, *equal as u64, ends_first, *differing, *rest_of as u64, rest_at, rest.len() as u64]
            }
        }
    }
}

impl Comparisons for Document01 {}

#[cfg(test)]
mod tests {
    use super::*;
    use crate::s1::{bytes, S1};

    fn compared(first: &[u8], second: &[u8]) -> [u64; 9] {
        Document01.nine_numbers(&Document01.compare(first, second))
    }

    /// What is answered of two recordings in document 01's written form.
    #[track_caller]
    fn check(first: &str, second: &str, numbers: [u64; 9]) {
        assert_eq!(compared(&bytes(first), &bytes(second)), numbers, "{first} beside {second}");
    }

    /// What differs in two single operations, which are unequal.
    #[track_caller]
    fn check_differing(one: &str, other: &str, differing: u64) {
        for (first, second) in [(one, other), (other, one)] {
            let [number, _, _, equal, ends_first, told, rest_of, ..] = compared(&bytes(first), &bytes(second));
            assert_eq!([number, equal, ends_first, told, rest_of], [0, 0, 0, differing, 1], "{first} beside {second}");
        }
    }

    #[test]
    fn the_example_of_the_manual() {
        let (first, second) = ("1 5 0 0 64 128 / 7 3", "1 5 0 1 64 132 / 7 3 / 4 0 49");
        check(first, second, [0, 0, 0, 0, 1, 0x28, 2, 9, 3]);
        check(second, first, [0, 0, 0, 0, 2, 0x28, 1, 9, 3]);
        assert_eq!((bytes(first).len(), bytes(second).len()), (9, 12));
        assert_eq!(bytes(second)[9..], [4, 0, 49]);
    }

    #[test]
    fn equal_recordings() {
        check(S1, S1, [0, 0, 0, 12, 0, 0, 1, 59, 0]);
        check("7 0", "7 0", [0, 0, 0, 1, 0, 0, 1, 2, 0]);
        check("", "", [0, 0, 0, 0, 0, 0, 1, 0, 0]);
    }

    #[test]
    fn one_that_is_a_front_of_the_other() {
        check("", S1, [0, 0, 0, 0, 1, 0, 2, 0, 59]);
        check(S1, "", [0, 0, 0, 0, 2, 0, 1, 0, 59]);
        check("0 0 8 0", "0 0 8 0 / 4 0 49 / 7 0", [0, 0, 0, 1, 1, 0, 2, 4, 5]);
        check("0 0 8 0 / 4 0 49 / 7 0", "0 0 8 0 / 4 0 49", [0, 0, 0, 2, 2, 0, 1, 7, 2]);
    }

    #[test]
    fn each_field_of_a_pair() {
        check_differing("1 5 0 0 64 128", "1 6 0 0 64 128", 0x2);
        check_differing("1 5 0 0 64 128", "1 5 8 0 64 128", 0x4);
        check_differing("1 5 0 0 64 128", "1 5 0 1 64 128", 0x8);
        check_differing("1 5 0 0 64 128", "1 5 0 0 65 128", 0x10);
        check_differing("1 5 0 0 64 128", "1 5 0 0 64 129", 0x20);
        check_differing("10 40 0 1000 1500 7", "10 41 1 1001 1501 8", 0x3E);
        check_differing("7 0", "7 128", 0x2);
        check_differing("6 0 1 18446744073709551615", "6 0 1 9223372036854775807", 0x8);
        check_differing("0 0 8 0", "0 0 16 1", 0xC);
    }

    #[test]
    fn the_code_alone_where_codes_differ() {
        check_differing("1 5 0 0 64 128", "2 5 0 0 64 128", 0x1);
        check_differing("1 5 0 0 64 128", "10 9 1 1 1 1", 0x1);
        check_differing("7 0", "5 3 32", 0x1);
    }

    /// What stands behind an operation is no field of it.
    #[test]
    fn only_own_fields_are_compared() {
        check("7 0 / 1 0 0 0 0 0", "7 0 / 4 5 49", [0, 0, 0, 1, 0, 0x1, 1, 8, 0]);
        check("5 0 32 / 7 0", "5 0 32 / 7 0 / 7 9", [0, 0, 0, 2, 1, 0, 2, 5, 2]);
        assert_eq!(Document01.differing([7, 0, 1, 2, 3, 4], [7, 0, 5, 6, 7, 8]), 0);
        assert_eq!(Document01.differing([5, 0, 1, 2, 3, 4], [5, 0, 2, 6, 7, 8]), 0x4);
    }

    #[test]
    fn the_first_unequal_pair_alone_is_told() {
        check("7 0 / 7 1 / 5 0 1 / 7 4", "7 0 / 7 2 / 5 0 2 / 7 4", [0, 0, 0, 1, 0, 0x2, 1, 9, 0]);
    }

    /// By operations and not by bytes, and also behind an unequal pair.
    #[test]
    fn which_ends_first() {
        check("7 0 / 1 300 8 1 4112 4096", "7 0 / 7 1 / 7 2", [0, 0, 0, 1, 1, 0x1, 2, 4, 2]);
        check("7 0 / 7 1 / 7 2", "7 0 / 1 300 8 1 4112 4096", [0, 0, 0, 1, 2, 0x1, 1, 4, 2]);
        check("7 1", "7 300", [0, 0, 0, 0, 0, 0x2, 1, 2, 0]);
        check("7 300", "7 1", [0, 0, 0, 0, 0, 0x2, 1, 3, 0]);
    }

    #[test]
    fn where_a_bad_number_stands() {
        let good = bytes("7 0 / 5 0 32");
        for (bad, number, at) in [
            (&[7, 0, 5, 0x80, 0x00, 32][..], 1, 3),
            (&[7, 0, 5, 0, 0x80], 1, 4),
            (&[7, 0, 5, 0], 1, 4),
            (&[7, 0, 5], 1, 3),
            (&[7, 0, 0x80, 0x00], 1, 2),
            (&[7, 0, 11, 0x80, 0x00], 2, 2),
            (&[7, 0, 0x8B, 0x01], 2, 2),
            (&[11], 2, 0),
        ] {
            assert_eq!(compared(bad, &good), [number, 1, at, 0, 0, 0, 0, 0, 0], "{bad:x?}");
            assert_eq!(compared(&good, bad), [number, 2, at, 0, 0, 0, 0, 0, 0], "{bad:x?}");
            assert_eq!(compared(bad, bad), [number, 1, at, 0, 0, 0, 0, 0, 0], "{bad:x?}");
        }
    }

    #[test]
    fn bad_numbers_behind_an_end_and_behind_an_unequal_pair() {
        let cut = bytes("7 0 / 7 1 / 5 0");
        assert_eq!(compared(&cut, &bytes("7 0")), [1, 1, 6, 0, 0, 0, 0, 0, 0]);
        assert_eq!(compared(&[], &cut), [1, 2, 6, 0, 0, 0, 0, 0, 0]);
        assert_eq!(compared(&bytes("7 9 / 7 1 / 7 2"), &cut), [1, 2, 6, 0, 0, 0, 0, 0, 0]);
    }

    #[test]
    fn the_first_recordings_bad_number_goes_before_the_seconds() {
        let (late, early) = (bytes("7 0 / 7 1 / 5 0"), [11]);
        assert_eq!(compared(&late, &early), [1, 1, 6, 0, 0, 0, 0, 0, 0]);
        assert_eq!(compared(&early, &late), [2, 1, 0, 0, 0, 0, 0, 0, 0]);
    }

    #[test]
    fn the_rest_is_a_part_of_the_longer_one() {
        let (first, second) = (bytes("7 300 / 7 0"), bytes("7 1 / 7 2 / 5 0 32 / 7 9"));
        let parting = Document01.compare(&first, &second).unwrap();
        assert_eq!((parting.rest_of, &second[parting.rest]), (Which::Second, &[5, 0, 32, 7, 9][..]));
    }
}
