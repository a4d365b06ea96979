//! The manual, "Programs": the text that `pack` makes a recording from.

use crate::{own_fields, Document01, Recordings};

/// What becomes of a text.
#[derive(Clone, Debug, PartialEq, Eq)]
pub struct Packed {
    /// The recording, which ends before the first wrong operation.
    pub bytes: Vec<u8>,
    /// The line of that operation, counted from 1.
    pub wrong: Option<usize>,
}

/// The rules of the notation, one method a rule. A test that wants to know whether an error would be found overrides one.
pub trait Notation: Recordings {
    /// The operations of each line, one after another, up to the end or to a wrong one.
    fn pack(&self, text: &[u8]) -> Packed {
        let mut bytes = Vec::new();
        for (number, line) in (self.first_line()..).zip(self.lines(text)) {
            for operation in self.operations(self.without_comment(line)) {
                match self.operation_of(operation) {
                    Some(packed) => bytes.extend(packed),
                    None => return Packed { bytes, wrong: Some(number) },
                }
            }
        }
        Packed { bytes, wrong: None }
    }

    fn first_line(&self) -> usize {
        1
    }

    /// The last line may have no end.
    fn lines<'t>(&self, text: &'t [u8]) -> Vec<&'t [u8]> {
        text.split(|&byte| byte == b'\n').collect()
    }

    /// A comment hides whatever stands between `#` and the end of the line.
    fn without_comment<'t>(&self, line: &'t [u8]) -> &'t [u8] {
        let start = line.iter().position(|&byte| byte == b'#');
        &line[..start.unwrap_or(line.len())]
    }

    fn operations<'t>(&self, line: &'t [u8]) -> Vec<&'t [u8]> {
        line.split(|&byte| byte == b'/').collect()
    }

    /// The bytes of an operation; none where it is wrong. What its fields hold is not judged.
    fn operation_of(&self, text: &[u8]) -> Option<Vec<u8>> {
        let words = text.split(|&byte| self.is_blank(byte)).filter(|word| !word.is_empty());
        let numbers: Vec<u64> = words.map(|word| self.number(word)).collect::<Option<_>>()?;
        match numbers.first() {
            None => self.nothing(),
            Some(&code) if self.is_whole(code, numbers.len()) => Some(self.bytes_of(&numbers)),
            Some(_) => None,
        }
    }

    fn is_blank(&self, byte: u8) -> bool {
        matches!(byte, b' ' | b'\t' | b'\r')
    }

    /// An operation without a number.
    fn nothing(&self) -> Option<Vec<u8>> {
        Some(Vec::new())
    }

    /// Whether an operation of this code has so many numbers; one of an unknown code has none.
    fn is_whole(&self, code: u64, numbers: usize) -> bool {
        own_fields(code).is_some_and(|own| numbers == 2 + own)
    }

    fn bytes_of(&self, numbers: &[u64]) -> Vec<u8> {
        numbers.iter().flat_map(|&number| self.number_bytes(number)).collect()
    }

    /// The number that a word is; none where a digit is missing or wrong, or the number too large.
    fn number(&self, word: &[u8]) -> Option<u64> {
        let (base, digits) = self.base_and_digits(word);
        if digits.is_empty() {
            return self.without_digits();
        }
        digits.iter().try_fold(0, |number, &byte| {
            let digit = self.digit(byte).filter(|&digit| digit < base)?;
            self.with_digit(number, base, digit)
        })
    }

    fn base_and_digits<'t>(&self, word: &'t [u8]) -> (u64, &'t [u8]) {
        match word {
            [b'0', b'x' | b'X', digits @ ..] => (16, digits),
            _ => (10, word),
        }
    }

    /// A `0x` alone.
    fn without_digits(&self) -> Option<u64> {
        None
    }

    /// Digits from 10 on are letters of either case.
    fn digit(&self, byte: u8) -> Option<u64> {
        match byte {
            b'0'..=b'9' => Some(u64::from(byte - b'0')),
            b'a'..=b'f' => Some(u64::from(byte - b'a') + 10),
            b'A'..=b'F' => Some(u64::from(byte - b'A') + 10),
            _ => None,
        }
    }

    /// A number with one more digit, if it is below 2^64 then.
    fn with_digit(&self, number: u64, base: u64, digit: u64) -> Option<u64> {
        number.checked_mul(base)?.checked_add(digit)
    }
}

impl Notation for Document01 {}

#[cfg(test)]
mod tests {
    use super::*;

    #[track_caller]
    fn packed(text: &str, bytes: &[u8]) {
        assert_eq!(Document01.pack(text.as_bytes()), Packed { bytes: bytes.to_vec(), wrong: None });
    }

    #[track_caller]
    fn wrong(text: &str, bytes: &[u8], line: usize) {
        assert_eq!(Document01.pack(text.as_bytes()), Packed { bytes: bytes.to_vec(), wrong: Some(line) });
    }

    #[test]
    fn numbers_of_either_base() {
        assert_eq!(Document01.number(b"0012"), Some(12));
        assert_eq!(Document01.number(b"0x12C"), Some(300));
        assert_eq!(Document01.number(b"0X00aBcDeF"), Some(0xAB_CDEF));
        assert_eq!(Document01.number(b"18446744073709551615"), Some(u64::MAX));
        assert_eq!(Document01.number(b"0x0ffffffffffffffff"), Some(u64::MAX));
    }

    #[test]
    fn words_that_are_no_numbers() {
        let large = ["18446744073709551616", "0x10000000000000000", "99999999999999999999999"];
        let other = ["0x", "0X", "x1", "12C", "0xg", "-1", "+1", "1_0", "00x1", "0x0x1", "1.0", ""];
        for word in large.into_iter().chain(other) {
            assert_eq!(Document01.number(word.as_bytes()), None, "{word}");
        }
    }

    #[test]
    fn where_operations_end() {
        packed("5 0 32/7 0\n7\t1", &[5, 0, 32, 7, 0, 7, 1]);
        packed(" 7 0 \r\n\r\n / # 8 / 8\n//7 0#", &[7, 0, 7, 0]);
        packed("", &[]);
    }

    #[test]
    fn up_to_a_wrong_operation() {
        wrong("7 0\n\n5 0 x / 7 0", &[7, 0], 3);
        wrong("7 0 / 11 0", &[7, 0], 1);
        wrong("8 0 4 / 8 0", &[8, 0, 4], 1);
        wrong("9 0 4 1 / 9 0 4", &[9, 0, 4, 1], 1);
        wrong("10 1 0 4 5 6 / 10 1 0 4 5", &[10, 1, 0, 4, 5, 6], 1);
        wrong("# 7 0\n7 0\n7 0 0", &[7, 0], 3);
        wrong("7 0\n5\n0 32", &[7, 0], 2);
    }
}
