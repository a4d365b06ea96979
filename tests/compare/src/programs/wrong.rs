//! Texts with one operation that `pack` must not take.

use super::spelling::{self, Style};
use crate::recording::make;
use crate::{Call, Random};
use model::{own_fields, LAST_CODE};

/// Words that are no numbers, and others that are no text either.
const NO_NUMBERS: &str =
    "x 0x 0X 12a 0xg 0xG -1 +1 -0 1.0 1e3 1_000 1, 1; 0b1 0o7 ff FF a 0x0x1 x10 X10 00x1 0x-1 0x+1 \
                          0x_1 10h $10 '1' \"1\" ; -";
const ODD: [&[u8]; 8] = [b"1\x0B", b"\x0C1", b"1\x0C", b"\x00", b"1\x00", b"\xC2\xB2", b"1\xC2\xA0", b"\xFF"];
/// Bytes that are no white space and end nothing.
const NO_BLANKS: [u8; 11] = *b"\x00\x0B\x0C\x1A\x85\xA0,;_-\\";

/// How many codes there are.
const CODES: u64 = LAST_CODE + 1;

/// What is wrong with an operation.
#[derive(Clone, Copy, Debug, PartialEq, Eq)]
pub enum Kind {
    /// A word is no number.
    NoNumber,
    /// A word that is no number stands after all numbers, or hangs on the last.
    Followed,
    /// What stands between two numbers is no white space.
    Joined,
    TooLarge,
    UnknownCode,
    TooFew,
    TooMany,
}

impl Kind {
    pub const ALL: [Kind; 7] =
        [Kind::NoNumber, Kind::Followed, Kind::Joined, Kind::TooLarge, Kind::UnknownCode, Kind::TooFew, Kind::TooMany];
}

/// So many cases of a kind try each wrong word, each code and each count of numbers.
pub const CASES: usize = 40;

/// A text with a wrong operation after some others and before some others. The case chooses among what is wrong.
pub fn text(random: &mut Random, kind: Kind, case: usize) -> Vec<u8> {
    let style = random.one_of(&[Style::Plain, Style::Mixed]);
    let mut text = others(random, style);
    let words = words(random, kind, case, style);
    spelling::operation(random, &mut text, &words, style);
    spelling::end(random, &mut text, style);
    text.extend(others(random, style));
    text
}

/// Some operations, the last of which is ended.
fn others(random: &mut Random, style: Style) -> Vec<u8> {
    let calls: Vec<Call> = (0..random.below(6)).map(|_| make::operation(random)).collect();
    let mut text = spelling::text(random, &calls, style);
    spelling::end(random, &mut text, style);
    text
}

/// The words of an operation that is wrong in this way.
fn words(random: &mut Random, kind: Kind, case: usize, style: Style) -> Vec<Vec<u8>> {
    let numbers = numbers(random, kind, case);
    let mut words: Vec<Vec<u8>> = numbers.iter().map(|&number| spelling::word(random, number, style)).collect();
    let last = words.len() - 1;
    // Seldom the code: a wrong one could hide that the word was taken.
    let place = if random.percent(10) { 0 } else { random.below(last.max(1) as u64) as usize + 1 };
    match kind {
        Kind::NoNumber => words[place] = no_number(case),
        // Digits and an x could make another number of the last one.
        Kind::Followed if no_number(case)[0].is_ascii_alphanumeric() => words.push(no_number(case)),
        Kind::Followed if random.percent(50) => words.push(no_number(case)),
        Kind::Followed => words[last].extend(no_number(case)),
        Kind::Joined => {
            let (first, second) = (place.max(1) - 1, place.max(1));
            let joined = [&words[first][..], &[random.one_of(&NO_BLANKS)], &words[second]].concat();
            words.splice(first..=second, [joined]);
        }
        Kind::TooLarge => words[place] = too_large(random, case, numbers[place]),
        Kind::UnknownCode | Kind::TooFew | Kind::TooMany => {}
    }
    words
}

/// Its numbers, wrong in this way as far as it is numbers that are wrong.
fn numbers(random: &mut Random, kind: Kind, case: usize) -> Vec<u64> {
    let code = case as u64 % CODES;
    let own = 2 + own_fields(code).expect("a known code");
    let count = match kind {
        Kind::UnknownCode => return unknown_code(random, case),
        // Each code has one missing once, which is the nearest to an operation.
        Kind::TooFew if case < CODES as usize => own - 1,
        Kind::TooFew => 1 + random.below(own as u64 - 1) as usize,
        Kind::TooMany => own + 1 + case / CODES as usize,
        _ => own,
    };
    let others = (1..count).map(|_| make::any_number(random));
    [code].into_iter().chain(others).collect()
}

fn no_number(case: usize) -> Vec<u8> {
    let words: Vec<&[u8]> = NO_NUMBERS.split(' ').map(str::as_bytes).chain(ODD).collect();
    assert_eq!(words.len(), CASES, "each word has its case");
    words[case].to_vec()
}

/// A code above the last one, often one whose lowest bits are a code, with as many numbers as that code has or others.
fn unknown_code(random: &mut Random, case: usize) -> Vec<u64> {
    let low = random.below(CODES);
    let code = match case {
        0..=15 => CODES + case as u64,
        16 => u64::MAX,
        _ => low | 1 << random.one_of(&[4, 5, 7, 8, 16, 32, 63]),
    };
    let count =
        if random.percent(50) { 2 + own_fields(low).expect("a known code") as u64 } else { 1 + random.below(7) };
    let others = (1..count).map(|_| make::any_number(random));
    [code].into_iter().chain(others).collect()
}

/// A number of 2^64 and more, often one that is `number` modulo 2^64.
fn too_large(random: &mut Random, case: usize, number: u64) -> Vec<u8> {
    let large = match case % 6 {
        0 => 1 << 64,
        1 => u128::from(number) | 1 << 64,
        2 => u128::from(number) | 1 << (64 + random.below(64)),
        3 => u128::from(u64::MAX) * 10 + u128::from(random.below(10)),
        4 => u128::from(random.number()) << 64 | u128::from(number),
        _ => u128::MAX,
    };
    let zeros = "0".repeat(random.below(3) as usize);
    match random.below(3) {
        0 => format!("0x{zeros}{:x}", large.max(1 << 64)),
        1 => format!("0X{zeros}{:X}0000000000000000", large.max(1 << 64)),
        _ => format!("{zeros}{}", large.max(1 << 64)),
    }
    .into_bytes()
}
