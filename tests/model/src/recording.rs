//! Document 01, "Recordings": numbers, operations and recorded steps in lent bytes.

use crate::{own_fields, Answer, Document01, Refusal, Rules};

/// The rules of recordings, one method a rule. A test that wants to know whether an error would be found overrides one.
pub trait Recordings: Rules {
    /// The number that starts at `at`, and the place after it; none where it is missing, cut off or malformed.
    ///
    /// "Groups of seven bits, low group first, top bit set when more follow".
    fn read_number(&self, bytes: &[u8], at: usize) -> Option<(u64, usize)> {
        let mut number = 0u128;
        for (place, &byte) in bytes.get(at..)?.iter().take(self.most_bytes()).enumerate() {
            number |= u128::from(byte & 0x7F) << (7 * place);
            if byte & 0x80 == 0 {
                let number = self.below_2_to_64(number)?;
                return self.shortest(place, byte).then_some((number, at + place + 1));
            }
        }
        None
    }

    /// "At most ten bytes".
    fn most_bytes(&self) -> usize {
        10
    }

    /// "Below 2^64".
    fn below_2_to_64(&self, number: u128) -> Option<u64> {
        u64::try_from(number).ok()
    }

    /// "Shortest form only", by the last byte and its place in the number.
    fn shortest(&self, place: usize, last: u8) -> bool {
        place == 0 || last != 0
    }

    /// The bytes of a number.
    fn number_bytes(&self, mut number: u64) -> Vec<u8> {
        let mut bytes = Vec::new();
        while number > 0x7F {
            bytes.push(number as u8 | 0x80);
            number >>= 7;
        }
        bytes.push(number as u8);
        bytes
    }

    /// The operation that starts at `at` as six numbers, and the place after it. The code is read first (1, then 2),
    /// then cycles and fields (1). Numbers beyond the operation's own fields are 0.
    fn read_operation(&self, bytes: &[u8], at: usize) -> Result<([u64; 6], usize), Stop> {
        let malformed = |at: usize| Stop { refusal: Refusal::Malformed, at: self.bad_number(at, bytes.len()) };
        let (code, mut next) = self.read_number(bytes, at).ok_or(malformed(at))?;
        let fields = self.fields_read(code).ok_or(Stop { refusal: Refusal::UnknownCode, at })?;
        let mut numbers = [code, 0, 0, 0, 0, 0];
        for number in &mut numbers[1..2 + fields] {
            (*number, next) = self.read_number(bytes, next).ok_or(malformed(next))?;
        }
        Ok((numbers, next))
    }

    /// How many fields stand behind a code that is read; none where the code is above the last one.
    fn fields_read(&self, code: u64) -> Option<usize> {
        own_fields(code)
    }

    /// The place of a bad number in an input of this length: where it starts (`docs/DECISIONS.md`, point 16). A missing
    /// number starts where the input ends, but where reading begins past the end, it starts there (`include/brb.h`).
    fn bad_number(&self, start: usize, _length: usize) -> usize {
        start
    }

    /// Reads the operation at `at` into a lent place and answers the place after it: 6 first, where the place holds no
    /// operation, then 1 and 2.
    fn read_into(&self, bytes: &[u8], at: usize, place: &mut [u64]) -> Result<usize, Refusal> {
        let place = place.get_mut(..6).ok_or(Refusal::RoomTooShort)?;
        let (numbers, next) = self.read_operation(bytes, at).map_err(|stop| stop.refusal)?;
        place.copy_from_slice(&numbers);
        Ok(next)
    }

    /// The bytes of an operation, its own fields only; none where the code is above the last one.
    fn operation_bytes(&self, numbers: [u64; 6]) -> Option<Vec<u8>> {
        let fields = self.fields_written(numbers[0])?;
        Some(numbers[..2 + fields].iter().flat_map(|&number| self.number_bytes(number)).collect())
    }

    /// How many fields of a code are written; none where the code is above the last one.
    fn fields_written(&self, code: u64) -> Option<usize> {
        own_fields(code)
    }

    /// Writes an operation at `at` and answers the number of bytes. It "checks only 2, then 6".
    fn write_operation(&self, room: &mut [u8], at: usize, numbers: [u64; 6]) -> Result<usize, Refusal> {
        let bytes = self.operation_bytes(numbers).ok_or(Refusal::UnknownCode)?;
        let place = room.get_mut(at..).and_then(|rest| rest.get_mut(..bytes.len()));
        place.ok_or(Refusal::RoomTooShort)?.copy_from_slice(&bytes);
        Ok(bytes.len())
    }

    /// "In a recording 7 comes first, then the code is read (1, then 2), then all fields (1), then the rest."
    fn step_recorded(&self, state: &mut [u64], room: &mut [u64], bytes: &[u8], at: usize) -> RecordedStep {
        if self.sound(state).is_none() {
            return RecordedStep { answer: Answer::Refused(Refusal::NotSound), next: at };
        }
        match self.read_operation(bytes, at) {
            Err(stop) => RecordedStep { answer: Answer::Refused(stop.refusal), next: stop.at },
            Ok((numbers, next)) => RecordedStep { answer: self.step(state, room, numbers), next },
        }
    }

    /// "After 7, 1 or 2 reading stops; after another refusal it goes on."
    fn stops(&self, answer: Answer) -> bool {
        matches!(answer, Answer::Refused(Refusal::NotSound | Refusal::Malformed | Refusal::UnknownCode))
    }
}

impl Recordings for Document01 {}

/// Where and why reading stops.
#[derive(Clone, Copy, Debug, PartialEq, Eq)]
pub struct Stop {
    pub refusal: Refusal,
    /// Where the bad number starts: [`Recordings::bad_number`].
    pub at: usize,
}

/// A step of a recording.
#[derive(Clone, Copy, Debug, PartialEq, Eq)]
pub struct RecordedStep {
    pub answer: Answer,
    /// The place after the operation; where reading stops, that of the [`Stop`], and after 7 where it began.
    pub next: usize,
}

#[cfg(test)]
mod tests {
    use super::*;
    use crate::State;

    #[test]
    fn numbers_of_document_01() {
        assert_eq!(Document01.number_bytes(300), [0xAC, 0x02]);
        assert_eq!(Document01.read_number(&[0xAC, 0x02], 0), Some((300, 2)));
        assert_eq!(Document01.read_number(&[0x80, 0x00], 0), None);
    }

    #[test]
    fn numbers_both_ways() {
        let bounds = (0..64).map(|n| 1u64 << n).flat_map(|n| [n - 1, n, n + 1]);
        for number in bounds.chain([u64::MAX]) {
            let bytes = Document01.number_bytes(number);
            assert_eq!(Document01.read_number(&bytes, 0), Some((number, bytes.len())));
            assert_eq!(Document01.read_number(&bytes[..bytes.len() - 1], 0), None, "cut off");
        }
        assert_eq!(Document01.number_bytes(u64::MAX).len(), 10);
    }

    #[test]
    fn malformed_numbers() {
        let most = [0xFF; 9];
        let with = |last: &[u8]| [&most[..], last].concat();
        assert_eq!(Document01.read_number(&with(&[0x01]), 0), Some((u64::MAX, 10)));
        assert_eq!(Document01.read_number(&with(&[0x02]), 0), None, "2^64 and more");
        assert_eq!(Document01.read_number(&with(&[0x81, 0x00]), 0), None, "eleven bytes");
        assert_eq!(Document01.read_number(&with(&[0x00]), 0), None, "not the shortest form");
        assert_eq!(Document01.read_number(&[0xAC, 0x82, 0x00], 0), None, "not the shortest form");
        assert_eq!(Document01.read_number(&[], 0), None);
        assert_eq!(Document01.read_number(&[1], 2), None);
    }

    #[test]
    fn operations_both_ways() {
        let branch = [1, 300, 8, 1, 4112, u64::MAX];
        let bytes = Document01.operation_bytes(branch).unwrap();
        assert_eq!(Document01.read_operation(&bytes, 0), Ok((branch, bytes.len())));
        let read = Document01.operation_bytes([5, 0, 32, 7, 7, 7]).unwrap();
        assert_eq!(Document01.read_operation(&read, 0), Ok(([5, 0, 32, 0, 0, 0], 3)), "0 beyond its own fields");
        let cases = [([8, 100, 4, 0, 0, 0], 3), ([9, 300, 8, 1, 0, 0], 5), ([10, 40, 0, 1000, 1500, 3], 8)];
        for (numbers, own) in cases {
            let bytes = Document01.operation_bytes(numbers).unwrap();
            assert_eq!((bytes.len(), Document01.read_operation(&bytes, 0)), (own, Ok((numbers, own))));
        }
    }

    #[test]
    fn reading_checks_code_then_fields() {
        let stop = |refusal, at| Err(Stop { refusal, at });
        assert_eq!(Document01.read_operation(&[11], 0), stop(Refusal::UnknownCode, 0), "cycles missing");
        assert_eq!(Document01.read_operation(&[11, 0x80, 0x00], 0), stop(Refusal::UnknownCode, 0));
        assert_eq!(Document01.read_operation(&[9, 0, 8], 0), stop(Refusal::Malformed, 3), "a resume without its level");
        let freeze = [10, 0, 1, 5, 6];
        assert_eq!(Document01.read_operation(&freeze, 0), stop(Refusal::Malformed, 5), "without its guest offset");
        assert_eq!(Document01.read_operation(&[0x80, 0x00], 0), stop(Refusal::Malformed, 0));
        assert_eq!(Document01.read_operation(&[5, 0, 0x80, 0x00], 0), stop(Refusal::Malformed, 2));
        assert_eq!(Document01.read_operation(&[5, 0], 0), stop(Refusal::Malformed, 2), "missing");
        assert_eq!(Document01.read_operation(&[5, 0, 0x80], 0), stop(Refusal::Malformed, 2), "cut off");
        assert_eq!(Document01.read_operation(&[7, 0], 2), stop(Refusal::Malformed, 2), "the end of input");
    }

    #[test]
    fn writing_checks_2_then_6() {
        let mut room = [0xEE; 4];
        assert_eq!(Document01.write_operation(&mut room, 9, [11, 0, 0, 0, 0, 0]), Err(Refusal::UnknownCode));
        assert_eq!(Document01.write_operation(&mut room, 1, [5, 300, 32, 0, 0, 0]), Err(Refusal::RoomTooShort));
        assert_eq!(room, [0xEE; 4]);
        assert_eq!(Document01.write_operation(&mut room, 0, [5, 300, 32, 0, 0, 0]), Ok(4));
        assert_eq!(room, [5, 0xAC, 0x02, 32]);
    }

    #[test]
    fn reading_into_a_place_checks_6_first() {
        let mut place = [9; 8];
        assert_eq!(Document01.read_into(&[11], 0, &mut place[..5]), Err(Refusal::RoomTooShort));
        assert_eq!(Document01.read_into(&[11], 0, &mut place), Err(Refusal::UnknownCode));
        assert_eq!(place, [9; 8]);
        assert_eq!(Document01.read_into(&[5, 1, 32], 0, &mut place), Ok(3));
        assert_eq!(place, [5, 1, 32, 0, 0, 0, 9, 9]);
    }

    #[test]
    fn a_recorded_step_checks_7_first() {
        let (mut state, mut room) = ([9; State::NUMBERS], []);
        let refused = |refusal, next| RecordedStep { answer: Answer::Refused(refusal), next };
        assert_eq!(Document01.step_recorded(&mut state, &mut room, &[11], 0), refused(Refusal::NotSound, 0));
        let mut state = [0; State::NUMBERS];
        assert_eq!(Document01.step_recorded(&mut state, &mut room, &[11], 0), refused(Refusal::UnknownCode, 0));
        assert_eq!(Document01.step_recorded(&mut state, &mut room, &[7], 0), refused(Refusal::Malformed, 1));
        assert_eq!(Document01.step_recorded(&mut state, &mut room, &[7, 0], 0), refused(Refusal::NotReset, 2));
        assert_eq!(Document01.step_recorded(&mut state, &mut room, &[7, 0], 2), refused(Refusal::Malformed, 2));
        assert_eq!(Document01.step_recorded(&mut state, &mut room, &[7, 0], 9), refused(Refusal::Malformed, 9));
    }
}
