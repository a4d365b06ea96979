//! Numbers at the edges of one byte and of two (document 02, Three), at each place of each operation. What reading comes to
//! stands here, and the library and the model must both say so, by a read, by a recorded step and by a batch.

use compare::engine::Lent;
use compare::seed::say;
use compare::{Engine, Library, Modelled, Sequence};
use model::{own_fields, Batches, Document01, LAST_CODE};

const MALFORMED: u64 = 1;
const UNKNOWN_CODE: u64 = 2;
/// No number starts with these bytes, which stand before the operation: who reads from a wrong place is refused.
const BEFORE: [u8; 3] = [0x80, 0x00, 0x00];

/// Bytes where a number should be, and the number that they are.
const WHOLE: [(&[u8], Option<u64>); 11] = [
    (&[0x00], Some(0)),
    (&[0x7E], Some(126)),
    (&[0x7F], Some(127)),
    (&[0x80, 0x00], None),
    (&[0x80, 0x01], Some(128)),
    (&[0x81, 0x01], Some(129)),
    (&[0xFF, 0x00], None),
    (&[0xFF, 0x01], Some(255)),
    (&[0xFF, 0x7F], Some(16383)),
    (&[0x80, 0x80, 0x00], None),
    (&[0x80, 0x80, 0x01], Some(16384)),
];
/// Bytes behind which the input ends.
const CUT: [&[u8]; 4] = [&[], &[0x80], &[0xFF], &[0x80, 0x80]];

/// What reading an operation comes to: its numbers, or the refusal and where the bad number starts.
type Read = Result<[u64; 6], (u64, usize)>;

struct Case {
    bytes: Vec<u8>,
    at: usize,
    read: Read,
}

/// An operation with 1 for each number but its code and the one at a place, where these bytes stand instead.
fn case(code: u64, place: usize, edge: &[u8], number: Option<u64>, behind: bool) -> Case {
    let own = 2 + own_fields(code).expect("a known code");
    let mut numbers = [0; 6];
    numbers[..own].fill(1);
    numbers[0] = code;
    let one_byte = |numbers: &[u64]| numbers.iter().map(|&number| number as u8).collect::<Vec<u8>>();
    let rest = if behind { one_byte(&numbers[place + 1..own]) } else { Vec::new() };
    let bytes = [&BEFORE, &one_byte(&numbers[..place])[..], edge, &rest].concat();
    let at = BEFORE.len();
    let read = match number {
        None => Err((MALFORMED, at + place)),
        Some(number) if place == 0 && own_fields(number).is_none() => Err((UNKNOWN_CODE, at)),
        Some(number) => {
            numbers[place] = number;
            Ok(numbers)
        }
    };
    Case { bytes, at, read }
}

/// Each code, each of its numbers and each edge. A code that is another code is no case, since it has fields of its own.
fn cases() -> Vec<Case> {
    let mut cases = Vec::new();
    for code in 0..=LAST_CODE {
        let own = 2 + own_fields(code).expect("a known code");
        for place in 0..own {
            let whole = WHOLE
                .iter()
                .filter(|(_, number)| place > 0 || number.is_none_or(|number| number > LAST_CODE || number == code));
            cases.extend(whole.map(|&(edge, number)| case(code, place, edge, number, true)));
            cases.extend(CUT.iter().map(|edge| case(code, place, edge, None, false)));
        }
    }
    cases
}

fn check_read(engine: &dyn Engine, Case { bytes, at, read }: &Case) {
    let before = [u64::MAX; 6];
    let mut place = before;
    let answer = engine.recording_read(bytes, *at, &mut place);
    let expected = read.map_or_else(|(number, _)| ((number, 0), before), |numbers| ((0, bytes.len() as u64), numbers));
    assert_eq!((answer, place), expected, "{}: {bytes:x?}", engine.name());
}

/// What a recorded step leaves, which is what it found where reading is refused.
fn check_step(engine: &dyn Engine, Case { bytes, at, read }: &Case) -> ((u64, u64), Lent) {
    let fresh = Sequence::fresh(192);
    let mut lent = fresh.clone();
    let (answer, next) = engine.step_recorded(&mut lent.state, &mut lent.room, bytes, *at);
    match read {
        Ok(_) => assert_eq!(next, bytes.len() as u64, "{}: {bytes:x?}", engine.name()),
        &Err((number, place)) => {
            assert_eq!((answer, next), ((number, 0), place as u64), "{}: {bytes:x?}", engine.name());
            assert!(lent == fresh, "{}: {bytes:x?}: nothing is changed", engine.name());
        }
    }
    (answer, lent)
}

/// A batch of the operation alone answers what a recorded step does and leaves the same.
fn check_batches(Case { bytes, at, .. }: &Case, (answer, left): &((u64, u64), Lent)) {
    let run = &bytes[*at..];
    if run.is_empty() {
        return;
    }
    let [mut by_library, mut by_model] = [(); 2].map(|()| (Sequence::fresh(192), [9; 2]));
    let (lent, answers) = &mut by_library;
    let done = brb::batch(&mut lent.state, &mut lent.room, run, answers);
    assert_eq!((done.number, done.value), (0, 1), "library: {run:x?}");
    let (lent, answers) = &mut by_model;
    assert_eq!(Document01.batch(&mut lent.state, &mut lent.room, run, answers), Ok(1), "model: {run:x?}");
    for (lent, answers) in [by_library, by_model] {
        assert_eq!(answers, [answer.0, answer.1], "{run:x?}");
        assert!(lent == *left, "{run:x?}: state and room");
    }
}

#[test]
fn numbers_of_one_and_two_bytes_at_each_place_of_each_operation() {
    let engines: [&dyn Engine; 2] = [&Library, &Modelled(Document01)];
    let cases = cases();
    for case in &cases {
        let [library, model] = engines.map(|engine| {
            check_read(engine, case);
            check_step(engine, case)
        });
        assert!(library == model, "{:x?}: a recorded step", case.bytes);
        check_batches(case, &library);
    }
    let refused = |number| cases.iter().filter(|case| case.read.is_err_and(|(refusal, _)| refusal == number)).count();
    let (malformed, unknown) = (refused(MALFORMED), refused(UNKNOWN_CODE));
    say(&format!(
        "edges of one byte and of two: {} operations, {malformed} refused with 1 and {unknown} with 2",
        cases.len()
    ));
    assert!(malformed > 200 && unknown > 40, "every edge is met");
}
