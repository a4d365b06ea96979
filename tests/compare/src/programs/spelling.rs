//! Operations as text, in every notation that `pack` takes.

use crate::{Call, Random};
use model::own_fields;

/// What may stand in a comment: what would be an operation, what would end one, and what is no text at all.
const COMMENTS: [&[u8]; 8] =
    [b"", b" a branch", b"7 0", b" / 7 0", b"/", b"# 7 0 / #", b" 0x 8 -1 \t", b" \xC3\xA4 \xFF\x00"];
const BLANKS: [&[u8]; 8] = [b" ", b" ", b" ", b"\t", b"\r", b"  ", b" \t ", b"\r \t"];
/// More blanks, zeros or comment than a program could want to keep.
const LONG: usize = 300;

/// How operations are written.
#[derive(Clone, Copy, Debug, PartialEq, Eq)]
pub enum Style {
    /// Decimal numbers, one space between each two, one operation a line.
    Plain,
    /// Anything that is permitted.
    Mixed,
}

/// Operations as a text. The last line may have no end.
pub fn text(random: &mut Random, calls: &[Call], style: Style) -> Vec<u8> {
    let mut text = Vec::new();
    for (place, call) in calls.iter().enumerate() {
        let own = 2 + own_fields(call.code()).expect("a known code");
        let words: Vec<Vec<u8>> = call.0[..own].iter().map(|&number| word(random, number, style)).collect();
        operation(random, &mut text, &words, style);
        let last = place + 1 == calls.len();
        if !last || random.percent(50) {
            end(random, &mut text, style);
        }
    }
    text
}

/// One operation's words and the blanks around them.
pub fn operation(random: &mut Random, text: &mut Vec<u8>, words: &[Vec<u8>], style: Style) {
    around(random, text, style);
    for (place, word) in words.iter().enumerate() {
        if place > 0 {
            text.extend(blank(random, style));
        }
        text.extend(word);
    }
    around(random, text, style);
}

/// What ends an operation, with empty operations and lines that hold only a comment after it.
pub fn end(random: &mut Random, text: &mut Vec<u8>, style: Style) {
    loop {
        match random.below(8) {
            _ if style == Style::Plain => text.push(b'\n'),
            0..=2 => text.push(b'\n'),
            3 => text.extend(b"\r\n"),
            4 | 5 => text.push(b'/'),
            6 => comment(random, text, b"\n"),
            _ => comment(random, text, b"\r\n"),
        }
        if style == Style::Plain || random.percent(75) {
            return;
        }
        around(random, text, style);
    }
}

fn comment(random: &mut Random, text: &mut Vec<u8>, end: &[u8]) {
    text.push(b'#');
    let repeated = if random.percent(1) { LONG } else { 1 };
    text.extend(random.one_of(&COMMENTS).repeat(repeated));
    text.extend(end);
}

fn around(random: &mut Random, text: &mut Vec<u8>, style: Style) {
    if style == Style::Mixed && random.percent(30) {
        text.extend(blank(random, style));
    }
}

fn blank(random: &mut Random, style: Style) -> Vec<u8> {
    match style {
        Style::Plain => b" ".to_vec(),
        Style::Mixed if random.below(1000) == 0 => random.one_of(&BLANKS).repeat(LONG),
        Style::Mixed => random.one_of(&BLANKS).to_vec(),
    }
}

/// A number as a word.
pub fn word(random: &mut Random, number: u64, style: Style) -> Vec<u8> {
    if style == Style::Plain {
        return number.to_string().into_bytes();
    }
    let zeros = match random.below(1000) {
        0 => LONG,
        1..=200 => random.below(4) as usize,
        201..=230 => random.below(30) as usize,
        _ => 0,
    };
    let (start, digits) = match random.below(5) {
        0 | 1 => ("", number.to_string()),
        2 => (random.one_of(&["0x", "0X"]), format!("{number:x}")),
        3 => (random.one_of(&["0x", "0X"]), format!("{number:X}")),
        _ => (random.one_of(&["0x", "0X"]), either_case(random, number)),
    };
    [start.as_bytes(), &vec![b'0'; zeros], digits.as_bytes()].concat()
}

fn either_case(random: &mut Random, number: u64) -> String {
    let digits = format!("{number:x}");
    digits.chars().map(|digit| if random.percent(50) { digit.to_ascii_uppercase() } else { digit }).collect()
}
