//! The comparison of `pack` is tried on wrong models, each with one planted error: it must find the error and shrink the text
//! to a short line. `-- --nocapture` shows each shrunk case.

use compare::programs::planted::{self, Seen};
use compare::programs::spelling::{self, Style};
use compare::programs::{edges, wrong, Packed, Program, Way};
use compare::seed;
use compare::Random;
use model::notation::{Notation, Packed as Result01};
use model::{own_fields, Document01, Recordings, Rules, LAST_CODE};

/// These tests are about the comparison itself: they repeat unless told otherwise.
const SEED: u64 = 1;
/// A text of so many operations is soon shrunk.
const OPERATIONS: usize = 100;

/// Wrong models, each by the words that say what is wrong and the rules of the notation that it changes.
macro_rules! planted {
    ($(($words:literal, $name:ident { $($rule:tt)* }))*) => {
        $(
            struct $name;
            impl Rules for $name {}
            impl Recordings for $name {}
            impl Notation for $name { $($rule)* }
        )*
        const PLANTED: &[(&str, &dyn Notation)] = &[$(($words, &$name)),*];
    };
}

/// Whether a word is written in hexadecimal.
fn is_hexadecimal(word: &[u8]) -> bool {
    matches!(word, [b'0', b'x' | b'X', ..])
}

planted! {
    ("hexadecimal digits are read as decimal", HexadecimalAsDecimal {
        fn base_and_digits<'t>(&self, word: &'t [u8]) -> (u64, &'t [u8]) {
            let (_, digits) = Document01.base_and_digits(word);
            (if digits.iter().all(u8::is_ascii_digit) { 10 } else { 16 }, digits)
        }
    })
    ("decimal digits are read as hexadecimal", DecimalAsHexadecimal {
        fn base_and_digits<'t>(&self, word: &'t [u8]) -> (u64, &'t [u8]) {
            (16, Document01.base_and_digits(word).1)
        }
    })
    ("hexadecimal digits need no 0x", WithoutPrefix {
        fn base_and_digits<'t>(&self, word: &'t [u8]) -> (u64, &'t [u8]) {
            let (base, digits) = Document01.base_and_digits(word);
            (if word.iter().any(u8::is_ascii_alphabetic) { 16 } else { base }, digits)
        }
    })
    ("0X is refused", UpperPrefix {
        fn base_and_digits<'t>(&self, word: &'t [u8]) -> (u64, &'t [u8]) {
            if word.starts_with(b"0X") { (10, word) } else { Document01.base_and_digits(word) }
        }
    })
    ("a 0 in front makes a number octal", Octal {
        fn base_and_digits<'t>(&self, word: &'t [u8]) -> (u64, &'t [u8]) {
            match word {
                [b'0', digits @ ..] if !is_hexadecimal(word) && !digits.is_empty() => (8, digits),
                _ => Document01.base_and_digits(word),
            }
        }
    })
    ("a + in front is accepted", Plus {
        fn base_and_digits<'t>(&self, word: &'t [u8]) -> (u64, &'t [u8]) {
            Document01.base_and_digits(word.strip_prefix(b"+").unwrap_or(word))
        }
    })
    ("0b is accepted", Binary {
        fn base_and_digits<'t>(&self, word: &'t [u8]) -> (u64, &'t [u8]) {
            word.strip_prefix(b"0b").map_or(Document01.base_and_digits(word), |digits| (2, digits))
        }
    })
    ("a lone 0x is 0", LonePrefix {
        fn without_digits(&self) -> Option<u64> {
            Some(0)
        }
    })
    ("upper-case digits are refused", UpperCase {
        fn digit(&self, byte: u8) -> Option<u64> {
            Document01.digit(byte).filter(|_| !byte.is_ascii_uppercase())
        }
    })
    ("lower-case digits are refused", LowerCase {
        fn digit(&self, byte: u8) -> Option<u64> {
            Document01.digit(byte).filter(|_| !byte.is_ascii_lowercase())
        }
    })
    ("the digit f is refused", LastDigit {
        fn digit(&self, byte: u8) -> Option<u64> {
            Document01.digit(byte).filter(|&digit| digit < 15)
        }
    })
    ("G is a digit", SixteenthDigit {
        fn digit(&self, byte: u8) -> Option<u64> {
            if byte == b'G' { Some(15) } else { Document01.digit(byte) }
        }
    })
    ("an underscore between digits is skipped", Underscore {
        fn number(&self, word: &[u8]) -> Option<u64> {
            let digits: Vec<u8> = word.iter().copied().filter(|&byte| byte != b'_').collect();
            Document01.number(&digits)
        }
    })
    ("a number ends at what is no digit", EndsAtNoDigit {
        fn number(&self, word: &[u8]) -> Option<u64> {
            let (base, digits) = self.base_and_digits(word);
            let end = digits.iter().position(|&byte| self.digit(byte).is_none_or(|digit| digit >= base));
            match end {
                Some(end @ 1..) => Document01.number(&word[..word.len() - digits.len() + end]),
                _ => Document01.number(word),
            }
        }
    })
    ("2^64 and more is taken modulo 2^64", Wrapped {
        fn with_digit(&self, number: u64, base: u64, digit: u64) -> Option<u64> {
            Some(number.wrapping_mul(base).wrapping_add(digit))
        }
    })
    ("2^64 and more becomes 2^64 - 1", Saturated {
        fn with_digit(&self, number: u64, base: u64, digit: u64) -> Option<u64> {
            Some(number.saturating_mul(base).saturating_add(digit))
        }
    })
    ("2^64 - 1 is refused", LargestRefused {
        fn with_digit(&self, number: u64, base: u64, digit: u64) -> Option<u64> {
            Document01.with_digit(number, base, digit).filter(|&number| number < u64::MAX)
        }
    })
    ("2^63 and more is refused", Signed {
        fn with_digit(&self, number: u64, base: u64, digit: u64) -> Option<u64> {
            Document01.with_digit(number, base, digit).filter(|&number| number < 1 << 63)
        }
    })
    ("hexadecimal numbers have at most 16 digits", SixteenDigits {
        fn number(&self, word: &[u8]) -> Option<u64> {
            if is_hexadecimal(word) && word.len() > 18 { None } else { Document01.number(word) }
        }
    })
    ("decimal numbers have at most 20 digits", TwentyDigits {
        fn number(&self, word: &[u8]) -> Option<u64> {
            if !is_hexadecimal(word) && word.len() > 20 { None } else { Document01.number(word) }
        }
    })
    ("a tab is no white space", Tab {
        fn is_blank(&self, byte: u8) -> bool {
            byte != b'\t' && Document01.is_blank(byte)
        }
    })
    ("CR is no white space", CarriageReturn {
        fn is_blank(&self, byte: u8) -> bool {
            byte != b'\r' && Document01.is_blank(byte)
        }
    })
    ("a form feed is white space", FormFeed {
        fn is_blank(&self, byte: u8) -> bool {
            byte == 0x0C || Document01.is_blank(byte)
        }
    })
    ("a comma is white space", Comma {
        fn is_blank(&self, byte: u8) -> bool {
            byte == b',' || Document01.is_blank(byte)
        }
    })
    ("CR ends an operation", ReturnEnds {
        fn operations<'t>(&self, line: &'t [u8]) -> Vec<&'t [u8]> {
            line.split(|&byte| matches!(byte, b'/' | b'\r')).collect()
        }
    })
    ("CR ends a line", ReturnEndsLine {
        fn lines<'t>(&self, text: &'t [u8]) -> Vec<&'t [u8]> {
            text.split(|&byte| matches!(byte, b'\n' | b'\r')).collect()
        }
    })
    ("/ does not end an operation", SlashIsBlank {
        fn operations<'t>(&self, line: &'t [u8]) -> Vec<&'t [u8]> {
            vec![line]
        }
        fn is_blank(&self, byte: u8) -> bool {
            byte == b'/' || Document01.is_blank(byte)
        }
    })
    ("/ needs white space before it", SlashAlone {
        fn operations<'t>(&self, line: &'t [u8]) -> Vec<&'t [u8]> {
            let ends = line.windows(2).any(|pair| pair[1] == b'/' && !self.is_blank(pair[0]));
            if ends { vec![line] } else { Document01.operations(line) }
        }
    })
    ("the end of a line does not end an operation", LineIsBlank {
        fn lines<'t>(&self, text: &'t [u8]) -> Vec<&'t [u8]> {
            if text.contains(&b'#') { Document01.lines(text) } else { vec![text] }
        }
        fn is_blank(&self, byte: u8) -> bool {
            byte == b'\n' || Document01.is_blank(byte)
        }
    })
    ("the last line is lost where it has no end", LastLineLost {
        fn lines<'t>(&self, text: &'t [u8]) -> Vec<&'t [u8]> {
            let mut lines = Document01.lines(text);
            lines.pop();
            lines
        }
    })
    ("an empty operation is wrong", EmptyIsWrong {
        fn nothing(&self) -> Option<Vec<u8>> {
            None
        }
    })
    ("an empty operation is BRB IALL", EmptyIsIall {
        fn nothing(&self) -> Option<Vec<u8>> {
            Some(vec![7, 0])
        }
    })
    ("a comment ends at /", CommentEndsAtSlash {
        fn without_comment<'t>(&self, line: &'t [u8]) -> &'t [u8] {
            line
        }
        fn operations<'t>(&self, line: &'t [u8]) -> Vec<&'t [u8]> {
            let parts = line.split(|&byte| byte == b'/');
            parts.map(|part| Document01.without_comment(part)).collect()
        }
    })
    ("a comment begins only where a line does", CommentAtStart {
        fn without_comment<'t>(&self, line: &'t [u8]) -> &'t [u8] {
            if line.starts_with(b"#") { &[] } else { line }
        }
    })
    ("a comment needs white space before it", CommentAfterBlank {
        fn without_comment<'t>(&self, line: &'t [u8]) -> &'t [u8] {
            let mut starts = (0..line.len()).filter(|&at| line[at] == b'#');
            let start = starts.find(|&at| at == 0 || self.is_blank(line[at - 1]));
            &line[..start.unwrap_or(line.len())]
        }
    })
    ("a second # ends a comment", CommentTwice {
        fn operations<'t>(&self, line: &'t [u8]) -> Vec<&'t [u8]> {
            Document01.operations(line)
        }
        fn without_comment<'t>(&self, line: &'t [u8]) -> &'t [u8] {
            let mut parts = line.splitn(3, |&byte| byte == b'#');
            let before = parts.next().unwrap_or_default();
            match parts.nth(1) {
                Some(after) if before.is_empty() => after,
                _ => before,
            }
        }
    })
    ("a ; starts a comment", Semicolon {
        fn without_comment<'t>(&self, line: &'t [u8]) -> &'t [u8] {
            let start = line.iter().position(|byte| b"#;".contains(byte));
            &line[..start.unwrap_or(line.len())]
        }
    })
    ("extra fields are accepted", ExtraFields {
        fn is_whole(&self, code: u64, numbers: usize) -> bool {
            own_fields(code).is_some_and(|own| numbers >= 2 + own)
        }
        fn bytes_of(&self, numbers: &[u64]) -> Vec<u8> {
            let own = own_fields(numbers[0]).expect("a known code");
            Document01.bytes_of(&numbers[..2 + own])
        }
    })
    ("extra fields of 6 are accepted", ExtraFieldsOfWrite {
        fn is_whole(&self, code: u64, numbers: usize) -> bool {
            (code == 6 && numbers > 4) || Document01.is_whole(code, numbers)
        }
    })
    ("missing fields are 0", MissingFields {
        fn is_whole(&self, code: u64, numbers: usize) -> bool {
            own_fields(code).is_some_and(|own| numbers <= 2 + own)
        }
        fn bytes_of(&self, numbers: &[u64]) -> Vec<u8> {
            let mut whole = numbers.to_vec();
            whole.resize(2 + own_fields(numbers[0]).expect("a known code"), 0);
            Document01.bytes_of(&whole)
        }
    })
    ("missing cycles are 0", MissingCycles {
        fn is_whole(&self, code: u64, numbers: usize) -> bool {
            Document01.is_whole(code, numbers) || numbers == 1 && code <= LAST_CODE
        }
    })
    ("an unknown code is packed", UnknownCode {
        fn is_whole(&self, code: u64, numbers: usize) -> bool {
            code > LAST_CODE || Document01.is_whole(code, numbers)
        }
    })
    ("a code is taken modulo 16", CodeModulo {
        fn is_whole(&self, code: u64, numbers: usize) -> bool {
            Document01.is_whole(code % 16, numbers)
        }
        fn bytes_of(&self, numbers: &[u64]) -> Vec<u8> {
            let mut known = numbers.to_vec();
            known[0] %= 16;
            Document01.bytes_of(&known)
        }
    })
    ("the last code is still 9", LastCode9 {
        fn is_whole(&self, code: u64, numbers: usize) -> bool {
            code <= 9 && Document01.is_whole(code, numbers)
        }
    })
    ("a resume's target and level are swapped", ResumeSwapped {
        fn bytes_of(&self, numbers: &[u64]) -> Vec<u8> {
            match numbers {
                [9, cycles, target, level] => Document01.bytes_of(&[9, *cycles, *level, *target]),
                _ => Document01.bytes_of(numbers),
            }
        }
    })
    ("a resume without its level is packed", ResumeWithoutLevel {
        fn is_whole(&self, code: u64, numbers: usize) -> bool {
            (code, numbers) == (9, 3) || Document01.is_whole(code, numbers)
        }
    })
    ("a freeze without its guest offset is packed", FreezeWithoutGuest {
        fn is_whole(&self, code: u64, numbers: usize) -> bool {
            (code, numbers) == (10, 5) || Document01.is_whole(code, numbers)
        }
    })
    ("a halt has a target", HaltWithTarget {
        fn is_whole(&self, code: u64, numbers: usize) -> bool {
            (code, numbers) == (8, 4) || Document01.is_whole(code, numbers)
        }
    })
    ("a code above 255 is taken by its lowest byte", CodeByte {
        fn is_whole(&self, code: u64, numbers: usize) -> bool {
            Document01.is_whole(code & 0xFF, numbers)
        }
    })
    ("fields are judged", FieldsJudged {
        fn operation_of(&self, text: &[u8]) -> Option<Vec<u8>> {
            let bytes = Document01.operation_of(text)?;
            match Document01.read_operation(&bytes, 0) {
                Ok(([code, _, fields @ ..], _)) if Document01.operation(code, fields).is_none() => None,
                _ => Some(bytes),
            }
        }
    })
    ("nothing is written where the text is wrong", NothingBefore {
        fn pack(&self, text: &[u8]) -> Result01 {
            let packed = Document01.pack(text);
            if packed.wrong.is_some() { Result01 { bytes: Vec::new(), ..packed } } else { packed }
        }
    })
    ("packing goes on after a wrong operation", GoesOn {
        fn pack(&self, text: &[u8]) -> Result01 {
            let mut bytes = Vec::new();
            for line in self.lines(text) {
                let operations = self.operations(self.without_comment(line));
                bytes.extend(operations.into_iter().filter_map(|operation| self.operation_of(operation)).flatten());
            }
            Result01 { bytes, ..Document01.pack(text) }
        }
    })
    ("lines are counted from 0", LinesFromZero {
        fn first_line(&self) -> usize {
            0
        }
    })
    ("a line that holds only a comment is not counted", CommentsNotCounted {
        fn lines<'t>(&self, text: &'t [u8]) -> Vec<&'t [u8]> {
            let mut lines = Document01.lines(text);
            lines.retain(|line| !line.starts_with(b"#"));
            lines
        }
    })
}

/// What the agreement is tested with: every operation at every edge, in short texts, and wrong texts of every kind.
fn cases(random: &mut Random) -> Vec<Packed> {
    let short = [&b"7 0"[..], b"/", b"\r", b"7 0 # 8 # 8\n", b"7 0\n7 0#", b"7 0\n8\n"];
    let mut cases: Vec<Packed> = short.into_iter().map(Packed::new).collect();
    for calls in edges::operations(random).chunks(OPERATIONS) {
        cases.push(Packed::new(spelling::text(random, calls, Style::Mixed)));
    }
    for case in 0..2 * wrong::CASES {
        cases.extend(wrong::Kind::ALL.map(|kind| Packed::new(wrong::text(random, kind, case % wrong::CASES))));
    }
    cases
}

#[test]
fn each_planted_error_of_the_notation_is_found_and_shrunk() {
    let test = "planted errors of the notation";
    let Some(program) = Program::of_test("pack", test, env!("CARGO_TARGET_TMPDIR")) else { return };
    let mut random = Random::new(seed::of_test(test, || SEED));
    let run = |packed: &Packed| packed.output(&program, &Way::File);
    let seen = Seen::new(cases(&mut random), run);
    let agreed = seen.found(run, |packed, output| packed.difference(output, &Document01));
    assert_eq!(agreed, None, "no error is planted");
    let found = PLANTED
        .iter()
        .map(|&(words, wrong)| (words, seen.found(run, |packed, output| packed.difference(output, wrong))));
    planted::check(test, found);
}
