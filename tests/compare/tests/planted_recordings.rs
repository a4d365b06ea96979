//! The comparison of recordings is tried on wrong models, each with one planted error: it must find the error and shrink
//! the bytes to a few. `-- --nocapture` shows each shrunk case.

use compare::planted::{check_lines, SEED};
use compare::recording::{run, Classes};
use compare::run::Disagreement;
use compare::seed;
use compare::{Engine, Library, Modelled, Random};
use model::recording::{RecordedStep, Stop};
use model::{Answer, Document01, Recordings, Refusal, Rules, LAST_CODE};

/// How many operations of each kind an error may hide from.
const OPERATIONS: u64 = 100_000;
const DAMAGED_RECORDINGS: usize = 20;
/// A shrunk case is printed on a line of at most so many characters.
const LONGEST: usize = 240;

/// Wrong models, each by the words that say what is wrong and the rules of recordings that it changes.
macro_rules! planted {
    ($(($words:literal, $name:ident { $($rule:tt)* }))*) => {
        $(
            struct $name;
            impl Rules for $name {}
            impl Recordings for $name { $($rule)* }
        )*
        const PLANTED: &[(&str, &dyn Engine)] = &[$(($words, &Modelled($name))),*];
    };
}

/// A recorded step of document 01 with another position after some answers.
fn moved(step: RecordedStep, answers: &[Refusal], next: usize) -> RecordedStep {
    match step.answer {
        Answer::Refused(refusal) if answers.contains(&refusal) => RecordedStep { next, ..step },
        _ => step,
    }
}

planted! {
    ("a number that is not in its shortest form is accepted", NotShortest {
        fn shortest(&self, _: usize, _: u8) -> bool {
            true
        }
    })
    ("80 00 alone is accepted", TwoByteZero {
        fn shortest(&self, place: usize, last: u8) -> bool {
            place <= 1 || last != 0
        }
    })
    ("ten bytes that end in 00 are accepted", TenBytesNotShortest {
        fn shortest(&self, place: usize, last: u8) -> bool {
            place == 0 || place == 9 || last != 0
        }
    })
    ("the eleventh byte is accepted", ElevenBytes {
        fn most_bytes(&self) -> usize {
            11
        }
        fn below_2_to_64(&self, number: u128) -> Option<u64> {
            let eleven = number >> 70 != 0;
            if eleven { Some(number as u64) } else { Document01.below_2_to_64(number) }
        }
    })
    ("the tenth byte is not accepted", NineBytes {
        fn most_bytes(&self) -> usize {
            9
        }
    })
    ("2^64 and more is taken modulo 2^64", Wrapped {
        fn below_2_to_64(&self, number: u128) -> Option<u64> {
            Some(number as u64)
        }
    })
    ("2^64 - 1 is refused", LargestRefused {
        fn below_2_to_64(&self, number: u128) -> Option<u64> {
            u64::try_from(number).ok().filter(|&number| number < u64::MAX)
        }
    })
    ("a number that the input cuts off is accepted", CutOffAccepted {
        fn read_number(&self, bytes: &[u8], at: usize) -> Option<(u64, usize)> {
            let mut ended = bytes.to_vec();
            if let Some(last) = ended.last_mut() {
                *last &= 0x7F;
            }
            Document01.read_number(&ended, at)
        }
    })
    ("128 is taken as a number of one byte", OneByte128 {
        fn read_number(&self, bytes: &[u8], at: usize) -> Option<(u64, usize)> {
            match bytes.get(at) {
                Some(0x80) => Some((128, at + 1)),
                _ => Document01.read_number(bytes, at),
            }
        }
    })
    ("the place after a number of one byte is one too far", ShortPlace {
        fn read_number(&self, bytes: &[u8], at: usize) -> Option<(u64, usize)> {
            let (number, next) = Document01.read_number(bytes, at)?;
            Some((number, if number == 127 { at + 2 } else { next }))
        }
    })
    ("the high group comes first", HighGroupFirst {
        fn number_bytes(&self, number: u64) -> Vec<u8> {
            let mut bytes = Document01.number_bytes(number);
            bytes.reverse();
            if let [first, .., last] = &mut bytes[..] {
                *first |= 0x80;
                *last &= 0x7F;
            }
            bytes
        }
    })
    ("the reader's last code is still 9", ReaderLastCode9 {
        fn fields_read(&self, code: u64) -> Option<usize> {
            model::own_fields(code).filter(|_| code <= 9)
        }
    })
    ("the reader takes a code 11", ReaderCode11 {
        fn fields_read(&self, code: u64) -> Option<usize> {
            if code == 11 { Some(0) } else { model::own_fields(code) }
        }
    })
    ("a freeze is read without its guest offset", FreezeWithoutGuest {
        fn fields_read(&self, code: u64) -> Option<usize> {
            if code == 10 { Some(3) } else { model::own_fields(code) }
        }
    })
    ("a resume is read without its level", ResumeWithoutLevel {
        fn fields_read(&self, code: u64) -> Option<usize> {
            if code == 9 { Some(1) } else { model::own_fields(code) }
        }
    })
    ("a halt is read with a target", HaltWithTarget {
        fn fields_read(&self, code: u64) -> Option<usize> {
            if code == 8 { Some(2) } else { model::own_fields(code) }
        }
    })
    ("the writer's last code is still 9", WriterLastCode9 {
        fn fields_written(&self, code: u64) -> Option<usize> {
            model::own_fields(code).filter(|_| code <= 9)
        }
    })
    ("the writer takes a code 11", WriterCode11 {
        fn fields_written(&self, code: u64) -> Option<usize> {
            if code == 11 { Some(0) } else { model::own_fields(code) }
        }
    })
    ("an unknown code is judged after its cycles", CodeAfterCycles {
        fn read_operation(&self, bytes: &[u8], at: usize) -> Result<([u64; 6], usize), Stop> {
            let read = Document01.read_operation(bytes, at);
            match read {
                Err(Stop { refusal: Refusal::UnknownCode, .. }) => {
                    let next = self.read_number(bytes, at).map_or(at, |(_, next)| next);
                    let cycles = self.read_number(bytes, next);
                    cycles.map_or(Err(Stop { refusal: Refusal::Malformed, at: next }), |_| read)
                }
                _ => read,
            }
        }
    })
    ("an unknown code is 2 in any form", CodeInAnyForm {
        fn read_operation(&self, bytes: &[u8], at: usize) -> Result<([u64; 6], usize), Stop> {
            match (Document01.read_operation(bytes, at), NotShortest.read_number(bytes, at)) {
                (Err(stop), Some((code, _))) if code > LAST_CODE => {
                    Err(Stop { refusal: Refusal::UnknownCode, ..stop })
                }
                (read, _) => read,
            }
        }
    })
    ("the place of a bad number is that of its operation", PlaceOfOperation {
        fn read_operation(&self, bytes: &[u8], at: usize) -> Result<([u64; 6], usize), Stop> {
            Document01.read_operation(bytes, at).map_err(|stop| Stop { at, ..stop })
        }
    })
    ("the place of a number that is cut off is the input's length", PlaceOfEnd {
        fn bad_number(&self, start: usize, length: usize) -> usize {
            if length.saturating_sub(start) < 2 { length } else { start }
        }
    })
    ("the place of a number past the end is the input's length", PlacePastTheEnd {
        fn bad_number(&self, start: usize, length: usize) -> usize {
            start.min(length)
        }
    })
    ("the place of an unknown code is after it", PlaceAfterCode {
        fn step_recorded(&self, state: &mut [u64], room: &mut [u64], bytes: &[u8], at: usize) -> RecordedStep {
            let after = self.read_number(bytes, at).map_or(at, |(_, next)| next);
            moved(Document01.step_recorded(state, room, bytes, at), &[Refusal::UnknownCode], after)
        }
    })
    ("the place after 7 is after the operation", ReadBefore7 {
        fn step_recorded(&self, state: &mut [u64], room: &mut [u64], bytes: &[u8], at: usize) -> RecordedStep {
            let next = self.read_operation(bytes, at).map_or(at, |(_, next)| next);
            moved(Document01.step_recorded(state, room, bytes, at), &[Refusal::NotSound], next)
        }
    })
    ("the place after 4 is before the operation", StuckAfter4 {
        fn step_recorded(&self, state: &mut [u64], room: &mut [u64], bytes: &[u8], at: usize) -> RecordedStep {
            moved(Document01.step_recorded(state, room, bytes, at), &[Refusal::OutsideList], at)
        }
    })
    ("7 comes after 1 and 2", SoundnessLast {
        fn step_recorded(&self, state: &mut [u64], room: &mut [u64], bytes: &[u8], at: usize) -> RecordedStep {
            match self.read_operation(bytes, at) {
                Err(stop) => RecordedStep { answer: Answer::Refused(stop.refusal), next: stop.at },
                Ok(_) => Document01.step_recorded(state, room, bytes, at),
            }
        }
    })
    ("the end of input is an operation that is done", EndIsDone {
        fn step_recorded(&self, state: &mut [u64], room: &mut [u64], bytes: &[u8], at: usize) -> RecordedStep {
            let step = Document01.step_recorded(state, room, bytes, at);
            let ended = at == bytes.len() && step.answer == Answer::Refused(Refusal::Malformed);
            if ended { RecordedStep { answer: Answer::Done, ..step } } else { step }
        }
    })
    ("numbers beyond the own fields are not 0", BeyondNotZero {
        fn read_into(&self, bytes: &[u8], at: usize, place: &mut [u64]) -> Result<usize, Refusal> {
            let before = place.to_vec();
            let next = Document01.read_into(bytes, at, place)?;
            let own = 2 + model::own_fields(place[0]).expect("it was read");
            place[own..].copy_from_slice(&before[own..]);
            Ok(next)
        }
    })
    ("numbers past the six are set to 0", PastTheSix {
        fn read_into(&self, bytes: &[u8], at: usize, place: &mut [u64]) -> Result<usize, Refusal> {
            let next = Document01.read_into(bytes, at, place)?;
            place[6..].fill(0);
            Ok(next)
        }
    })
    ("the place is written though reading is refused", PlaceWritten {
        fn read_into(&self, bytes: &[u8], at: usize, place: &mut [u64]) -> Result<usize, Refusal> {
            let read = Document01.read_into(bytes, at, place);
            if let (Err(Refusal::Malformed), Some((code, _))) = (read, self.read_number(bytes, at)) {
                place[0] = code;
            }
            read
        }
    })
    ("a place that is too short is judged after the bytes", PlaceLast {
        fn read_into(&self, bytes: &[u8], at: usize, place: &mut [u64]) -> Result<usize, Refusal> {
            self.read_operation(bytes, at).map_err(|stop| stop.refusal)?;
            Document01.read_into(bytes, at, place)
        }
    })
    ("a place need hold only the operation's own numbers", PlaceOfOwn {
        fn read_into(&self, bytes: &[u8], at: usize, place: &mut [u64]) -> Result<usize, Refusal> {
            let mut six = [0; 6];
            match (place.len(), Document01.read_into(bytes, at, &mut six)) {
                (length @ 2..=5, Ok(next)) if length >= 2 + model::own_fields(six[0]).expect("it was read") => {
                    place.copy_from_slice(&six[..length]);
                    Ok(next)
                }
                _ => Document01.read_into(bytes, at, place),
            }
        }
    })
    ("the writer writes what has room, and refuses", WritesOnRefusal {
        fn write_operation(&self, room: &mut [u8], at: usize, numbers: [u64; 6]) -> Result<usize, Refusal> {
            let written = Document01.write_operation(room, at, numbers);
            if let (Err(Refusal::RoomTooShort), Some(rest)) = (written, room.get_mut(at..)) {
                let bytes = self.operation_bytes(numbers).expect("a known code");
                rest.copy_from_slice(&bytes[..rest.len()]);
            }
            written
        }
    })
    ("the writer checks 6, then 2", RoomBeforeCode {
        fn write_operation(&self, room: &mut [u8], at: usize, numbers: [u64; 6]) -> Result<usize, Refusal> {
            if at >= room.len() {
                return Err(Refusal::RoomTooShort);
            }
            Document01.write_operation(room, at, numbers)
        }
    })
    ("the writer needs room for the longest operation", RoomForLongest {
        fn write_operation(&self, room: &mut [u8], at: usize, numbers: [u64; 6]) -> Result<usize, Refusal> {
            let short = numbers[0] <= LAST_CODE && room.len().saturating_sub(at) < 60;
            if short { Err(Refusal::RoomTooShort) } else { Document01.write_operation(room, at, numbers) }
        }
    })
    ("the writer needs a byte more than it writes", OneByteMore {
        fn write_operation(&self, room: &mut [u8], at: usize, numbers: [u64; 6]) -> Result<usize, Refusal> {
            let most = room.len().saturating_sub(1);
            Document01.write_operation(&mut room[..most], at, numbers)
        }
    })
    ("the writer writes all four fields", AllFieldsWritten {
        fn operation_bytes(&self, numbers: [u64; 6]) -> Option<Vec<u8>> {
            model::own_fields(numbers[0])?;
            Some(numbers.iter().flat_map(|&number| self.number_bytes(number)).collect())
        }
    })
    ("the writer checks the fields", FieldsChecked {
        fn write_operation(&self, room: &mut [u8], at: usize, numbers: [u64; 6]) -> Result<usize, Refusal> {
            let [code, _, fields @ ..] = numbers;
            let outside = code <= LAST_CODE && Document01.operation(code, fields).is_none();
            if outside { Err(Refusal::OutsideList) } else { Document01.write_operation(room, at, numbers) }
        }
    })
    ("the writer answers the position after the operation", WriterAnswersPosition {
        fn write_operation(&self, room: &mut [u8], at: usize, numbers: [u64; 6]) -> Result<usize, Refusal> {
            Document01.write_operation(room, at, numbers).map(|written| at + written)
        }
    })
}

/// The first disagreement of the library with a wrong model.
fn found(wrong: &dyn Engine, seed: u64) -> Option<Disagreement> {
    let (engines, mut classes) = ([&Library as &dyn Engine, wrong], Classes::default());
    let random = || Random::new(seed);
    let written = run::writings(engines, &mut random(), OPERATIONS, &mut classes).err();
    let damaged = || run::damaged(engines, &mut random(), DAMAGED_RECORDINGS, &mut classes.clone()).err();
    let read = || run::readings(engines, &mut random(), OPERATIONS, &mut classes.clone()).err();
    written.or_else(damaged).or_else(read)
}

#[test]
fn each_planted_error_of_recordings_is_found_and_shrunk() {
    const TEST: &str = "planted errors of recordings";
    let seed = seed::of_test(TEST, || SEED);
    let found = PLANTED.iter().map(|&(words, wrong)| (words, found(wrong, seed)));
    check_lines(TEST, found, LONGEST);
}
