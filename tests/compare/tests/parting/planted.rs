//! The comparison of recordings is tried on wrong models, each with one planted error: it must find the error and shrink the two
//! recordings to a few bytes. `-- --nocapture` shows each shrunk case.

use compare::parting::{run, Classes, Comparing};
use compare::planted::{check_lines, SEED};
use compare::run::Disagreement;
use compare::seed;
use compare::{Library, Modelled, Random};
use model::comparison::{Held, Parting, Unreadable, Which};
use model::recording::Stop;
use model::{own_fields, Comparisons, Document01, Recordings, Refusal, Rules};
use std::ops::Range;

/// How many rounds of pairs an error may hide from.
const ROUNDS: usize = 40;
/// How many recordings that are cut at each byte.
const RECORDINGS: usize = 10;
/// A shrunk pair is printed on a line of at most so many characters.
const LONGEST: usize = 80;

/// Wrong models, each by the words that say what is wrong and the rules of a comparison that it changes.
macro_rules! planted {
    ($(($words:literal, $name:ident { $($rule:tt)* }))*) => {
        $(
            struct $name;
            impl Rules for $name {}
            impl Recordings for $name {}
            impl Comparisons for $name { $($rule)* }
        )*
        const PLANTED: &[(&str, &dyn Comparing)] = &[$(($words, &Modelled($name))),*];
    };
}

/// What a comparison of the model comes to.
type Compared = Result<Parting, Unreadable>;

/// How many operations each has.
fn counts(held: &[Held; 2]) -> [usize; 2] {
    held.each_ref().map(|held| held.operations.len())
}

/// The number of the first unequal pair, of those that can be read.
fn unequal(held: &[Held; 2]) -> Option<usize> {
    let mut pairs = Document01.pairs(held).into_iter();
    pairs.position(|[one, other]| Document01.differing(one, other) != 0)
}

/// Document 02's answer, with other numbers where the two can be read, or where they cannot.
fn readable(compared: &Compared, change: impl Fn(&mut [u64; 9])) -> [u64; 9] {
    let mut numbers = Document01.nine_numbers(compared);
    if compared.is_ok() {
        change(&mut numbers);
    }
    numbers
}

fn refused(compared: &Compared, change: impl Fn(&mut [u64; 9])) -> [u64; 9] {
    let mut numbers = Document01.nine_numbers(compared);
    if compared.is_err() {
        change(&mut numbers);
    }
    numbers
}

/// What is told of the first bad number, and of nothing else, where only some bad numbers are told.
fn told(held: &[Held; 2], is_told: impl Fn(Which, usize) -> bool) -> Option<Unreadable> {
    let of = |which: Which| {
        let of = which.of(held.each_ref());
        let stop = of.bad.filter(|_| is_told(which, of.operations.len()))?;
        Some(Unreadable { which, stop })
    };
    of(Which::First).or(of(Which::Second))
}

planted! {
    ("the longer is that with more bytes", LongerByBytes {
        fn rest_of(&self, [first, second]: &[Held; 2]) -> Which {
            if first.length >= second.length { Which::First } else { Which::Second }
        }
        fn rest(&self, held: &[Held; 2], of: Which) -> Range<usize> {
            let [longer, other] = [of, of.other()].map(|which| which.of(held.each_ref()));
            longer.after(other.operations.len().min(longer.operations.len()))..longer.length
        }
    })
    ("that with fewer bytes ends first", EndsFirstByBytes {
        fn ends_first(&self, [first, second]: &[Held; 2]) -> Option<Which> {
            match first.length.cmp(&second.length) {
                std::cmp::Ordering::Less => Some(Which::First),
                std::cmp::Ordering::Equal => None,
                std::cmp::Ordering::Greater => Some(Which::Second),
            }
        }
    })
    ("which ends first is not told behind an unequal pair", EndsFirstOfEqual {
        fn ends_first(&self, held: &[Held; 2]) -> Option<Which> {
            if unequal(held).is_some() { None } else { Document01.ends_first(held) }
        }
    })
    ("the longer is told to end first", LongerEndsFirst {
        fn ends_first(&self, held: &[Held; 2]) -> Option<Which> {
            Document01.ends_first(held).map(Which::other)
        }
    })
    ("an empty recording does not end first", EmptyNeverEnds {
        fn ends_first(&self, held: &[Held; 2]) -> Option<Which> {
            if counts(held).contains(&0) { None } else { Document01.ends_first(held) }
        }
    })
    ("the place of a bad number is that of its operation", PlaceOfOperation {
        fn bad_at(&self, _: Stop, operation: usize, _: usize) -> usize {
            operation
        }
    })
    ("the place of a number that is missing is the last byte", PlaceOfLastByte {
        fn bad_at(&self, stop: Stop, _: usize, length: usize) -> usize {
            if stop.at == length { length - 1 } else { stop.at }
        }
    })
    ("the place of a number that is cut off is the recording's length", PlaceOfEnd {
        fn held(&self, bytes: &[u8]) -> Held {
            let mut held = Document01.held(bytes);
            let cut_off = |stop: &Stop| bytes.len() - stop.at < 10 && bytes[stop.at..].iter().all(|&byte| byte >= 0x80);
            held.bad.iter_mut().filter(|stop| cut_off(stop)).for_each(|stop| stop.at = bytes.len());
            held
        }
    })
    ("the place of a malformed number is that of its last byte", PlaceOfLast {
        fn held(&self, bytes: &[u8]) -> Held {
            let mut held = Document01.held(bytes);
            let last = |stop: &Stop| bytes[stop.at..].iter().take(10).position(|&byte| byte < 0x80);
            let malformed = held.bad.iter_mut().filter(|stop| stop.refusal == Refusal::Malformed);
            malformed.for_each(|stop| stop.at += last(stop).unwrap_or(0));
            held
        }
    })
    ("the place of an unknown code is behind it", PlaceBehindCode {
        fn bad_at(&self, stop: Stop, _: usize, _: usize) -> usize {
            if stop.refusal == Refusal::UnknownCode { stop.at + 1 } else { stop.at }
        }
    })
    ("the place of a bad number is counted from 1", PlaceFrom1 {
        fn bad_at(&self, stop: Stop, _: usize, _: usize) -> usize {
            stop.at + 1
        }
    })
    ("an unknown code is told as malformed", CodeMalformed {
        fn nine_numbers(&self, compared: &Compared) -> [u64; 9] {
            refused(compared, |numbers| numbers[0] = 1)
        }
    })
    ("an operation that is cut off is the recording's end", CutOffIsTheEnd {
        fn held(&self, bytes: &[u8]) -> Held {
            let mut held = Document01.held(bytes);
            if held.bad.is_some_and(|stop| stop.at == bytes.len()) {
                held.bad = None;
            }
            held
        }
    })
    ("no bytes are an operation that is missing", NothingIsMissing {
        fn held(&self, bytes: &[u8]) -> Held {
            let missing = Stop { refusal: Refusal::Malformed, at: 0 };
            Held { bad: if bytes.is_empty() { Some(missing) } else { Document01.held(bytes).bad }, ..Document01.held(bytes) }
        }
    })
    ("the bad number that stands further in front is told", FurtherInFront {
        fn unreadable(&self, held: &[Held; 2]) -> Option<Unreadable> {
            let at = |which: Which| which.of(held.each_ref()).bad.map(|stop| stop.at);
            let second = at(Which::First).zip(at(Which::Second)).is_some_and(|(first, second)| second < first);
            told(held, |which, _| which == Which::Second || !second)
        }
    })
    ("the bad number of the earlier operation is told", EarlierOperation {
        fn unreadable(&self, held: &[Held; 2]) -> Option<Unreadable> {
            let [first, second] = counts(held);
            let earlier = held[1].bad.is_some() && second < first;
            told(held, |which, _| which == Which::Second || !earlier)
        }
    })
    ("the second's bad number goes before the first's", SecondFirst {
        fn unreadable(&self, held: &[Held; 2]) -> Option<Unreadable> {
            let second = held[1].bad.is_some();
            told(held, |which, _| which == Which::Second || !second)
        }
    })
    ("the second's bad number is not told", SecondNotTold {
        fn unreadable(&self, held: &[Held; 2]) -> Option<Unreadable> {
            told(held, |which, _| which == Which::First)
        }
    })
    ("a bad number behind an unequal pair is not told", BadBehindUnequal {
        fn unreadable(&self, held: &[Held; 2]) -> Option<Unreadable> {
            let unequal = unequal(held);
            told(held, |_, operations| !unequal.is_some_and(|pair| operations > pair))
        }
    })
    ("a bad number behind the other's end is not told", BadBehindEnd {
        fn unreadable(&self, held: &[Held; 2]) -> Option<Unreadable> {
            told(held, |which, operations| {
                let other = which.other().of(held.each_ref());
                other.bad.is_some() || operations < other.operations.len()
            })
        }
    })
    ("equal pairs behind the parting are counted", EqualBehind {
        fn equal(&self, held: &[Held; 2]) -> usize {
            let pairs = self.pairs(held).into_iter();
            pairs.filter(|&[one, other]| self.differing(one, other) == 0).count()
        }
    })
    ("the unequal pair is counted as equal", UnequalCounted {
        fn equal(&self, held: &[Held; 2]) -> usize {
            Document01.equal(held) + usize::from(self.first_unequal(held).is_some())
        }
    })
    ("the last pair is not compared", LastNotCompared {
        fn pairs(&self, held: &[Held; 2]) -> Vec<[[u64; 6]; 2]> {
            let mut pairs = Document01.pairs(held);
            pairs.pop();
            pairs
        }
    })
    ("the last unequal pair is told", LastUnequal {
        fn first_unequal(&self, held: &[Held; 2]) -> Option<[[u64; 6]; 2]> {
            self.pairs(held).into_iter().rfind(|&[one, other]| self.differing(one, other) != 0)
        }
    })
    ("what differs in any pair is told", AnyPair {
        fn parting(&self, held: &[Held; 2]) -> Parting {
            let pairs = self.pairs(held).into_iter();
            let differing = pairs.map(|[one, other]| self.differing(one, other)).fold(0, |all, bits| all | bits);
            Parting { differing, ..Document01.parting(held) }
        }
    })
    ("only the first field that differs is told", FirstField {
        fn differing(&self, one: [u64; 6], other: [u64; 6]) -> u64 {
            let differing = Document01.differing(one, other);
            differing & differing.wrapping_neg()
        }
    })
    ("fields are told although the codes differ", FieldsOfOtherCodes {
        fn of_other_codes(&self, one: [u64; 6], other: [u64; 6]) -> u64 {
            (0..6).filter(|&place| one[place] != other[place]).map(|place| 1 << place).sum()
        }
    })
    ("the cycles are told although the codes differ", CyclesOfOtherCodes {
        fn of_other_codes(&self, one: [u64; 6], other: [u64; 6]) -> u64 {
            1 | u64::from(one[1] != other[1]) << 1
        }
    })
    ("four fields are compared of every operation, in the numbers that follow", FieldsBeyond {
        fn held(&self, bytes: &[u8]) -> Held {
            let mut held = Document01.held(bytes);
            for operation in &mut held.operations {
                let (mut at, own) = (operation.end, 2 + own_fields(operation.numbers[0]).expect("it was read"));
                for number in &mut operation.numbers[own..] {
                    (*number, at) = self.read_number(bytes, at).unwrap_or((0, at));
                }
            }
            held
        }
        fn compared(&self, _: u64) -> Range<usize> {
            1..6
        }
    })
    ("the cycles are not compared", CyclesNotCompared {
        fn compared(&self, code: u64) -> Range<usize> {
            2..Document01.compared(code).end
        }
    })
    ("the last field is not compared", LastFieldNotCompared {
        fn compared(&self, code: u64) -> Range<usize> {
            1..Document01.compared(code).end.min(5)
        }
    })
    ("a resume's level is not compared", ResumeLevelNotCompared {
        fn compared(&self, code: u64) -> Range<usize> {
            1..Document01.compared(code).end - usize::from(code == 9)
        }
    })
    ("numbers are compared modulo 2^32", Compared32 {
        fn differs(&self, one: u64, other: u64) -> bool {
            one as u32 != other as u32
        }
    })
    ("numbers are compared without their top bit", Compared63 {
        fn differs(&self, one: u64, other: u64) -> bool {
            one << 1 != other << 1
        }
    })
    ("the fields' bits begin with bit 1", BitsTooLow {
        fn bit_of(&self, place: usize) -> u64 {
            if place > 1 { 1 << (place - 1) } else { 1 << place }
        }
    })
    ("code and cycles have each other's bit", BitsSwapped {
        fn bit_of(&self, place: usize) -> u64 {
            if place < 2 { 2 >> place } else { 1 << place }
        }
    })
    ("the fields' bits are in the other order", BitsReversed {
        fn bit_of(&self, place: usize) -> u64 {
            if place > 1 { 1 << (7 - place) } else { 1 << place }
        }
    })
    ("the rest begins behind the equal front", RestBehindEqual {
        fn rest(&self, held: &[Held; 2], of: Which) -> Range<usize> {
            let longer = of.of(held.each_ref());
            longer.after(self.equal(held))..longer.length
        }
    })
    ("the rest begins at the other's length", RestAtLength {
        fn rest(&self, held: &[Held; 2], of: Which) -> Range<usize> {
            let [longer, other] = [of, of.other()].map(|which| which.of(held.each_ref()).length);
            other.min(longer)..longer
        }
    })
    ("the rest begins one operation too late", RestTooLate {
        fn rest(&self, held: &[Held; 2], of: Which) -> Range<usize> {
            let [longer, other] = [of, of.other()].map(|which| which.of(held.each_ref()));
            let fewer = (other.operations.len() + 1).min(longer.operations.len());
            longer.after(fewer)..longer.length
        }
    })
    ("the rest is one operation", RestOfOne {
        fn rest(&self, held: &[Held; 2], of: Which) -> Range<usize> {
            let rest = Document01.rest(held, of);
            let longer = of.of(held.each_ref());
            let one = (counts(held)[0].min(counts(held)[1]) + 1).min(longer.operations.len());
            rest.start..longer.after(one)
        }
    })
    ("the rest of the second is told where both have as many", SecondOfAsMany {
        fn rest_of(&self, held: &[Held; 2]) -> Which {
            let [first, second] = counts(held);
            if first > second { Which::First } else { Which::Second }
        }
    })
    ("no rest is told where both have as many", NoRestOfAsMany {
        fn nine_numbers(&self, compared: &Compared) -> [u64; 9] {
            readable(compared, |numbers| if numbers[8] == 0 { numbers[6] = 0 })
        }
    })
    ("an empty rest begins at 0", EmptyRestAt0 {
        fn nine_numbers(&self, compared: &Compared) -> [u64; 9] {
            readable(compared, |numbers| if numbers[8] == 0 { numbers[7] = 0 })
        }
    })
    ("the rest's end is told as its length", RestEnd {
        fn nine_numbers(&self, compared: &Compared) -> [u64; 9] {
            readable(compared, |numbers| numbers[8] += numbers[7])
        }
    })
    ("the first is told to be bad where none is", WhichOfNone {
        fn nine_numbers(&self, compared: &Compared) -> [u64; 9] {
            readable(compared, |numbers| numbers[1] = 1)
        }
    })
    ("a refusal has a rest of the first", RefusedRest {
        fn nine_numbers(&self, compared: &Compared) -> [u64; 9] {
            refused(compared, |numbers| numbers[6] = 1)
        }
    })
    ("a refusal tells that the bad one ends first", RefusedEnds {
        fn nine_numbers(&self, compared: &Compared) -> [u64; 9] {
            refused(compared, |numbers| numbers[4] = numbers[1])
        }
    })
}

/// The first disagreement of two, or of the first's answers with each other and with its single reads.
fn found(engines: [&dyn Comparing; 2], seed: u64) -> Option<Disagreement> {
    let mut classes = Classes::default();
    let pairs = run::pairs(engines, &mut Random::new(seed), ROUNDS, &mut classes).err();
    pairs.or_else(|| run::cuts(engines, &mut Random::new(seed), RECORDINGS, &mut classes).err())
}

#[test]
fn each_planted_error_of_partings_is_found_and_shrunk() {
    const TEST: &str = "planted errors of partings";
    let seed = seed::of_test(TEST, || SEED);
    let found = PLANTED.iter().map(|&(words, wrong)| (words, found([&Library, wrong], seed)));
    check_lines(TEST, found, LONGEST);
}

/// A wrong model beside itself: its own single reads, or the two recordings swapped, tell the error alone.
#[test]
fn each_planted_error_of_partings_is_told_without_a_second_model() {
    let seed = seed::of_test("planted errors of partings, without a second model", || SEED);
    let told = |wrong| found([wrong, wrong], seed).is_some();
    let missed: Vec<&str> = PLANTED.iter().filter(|(_, wrong)| !told(*wrong)).map(|(words, _)| *words).collect();
    assert!(missed.is_empty(), "{missed:#?}");
}
