//! Where two recordings part, by the library and by the model, beside the library's single reads, with the two swapped, and of
//! each with itself. `BRB_SEED` repeats a run.

mod planted;

use compare::parting::{run, Classes, Comparing, Pair, Walk};
use compare::recording::Recording;
use compare::seed::{self, say};
use compare::{Library, Modelled, Random};
use model::Document01;

const ROUNDS: usize = 1_500;
/// How many recordings are cut at each byte.
const RECORDINGS: usize = 40;
/// Fewer cases of a class than this prove nothing.
const LEAST: u64 = 1_000;
/// How many operations long recordings have.
const MANY: usize = 100_000;

const ENGINES: [&dyn Comparing; 2] = [&Library, &Modelled(Document01)];

#[test]
fn where_two_recordings_part() {
    let seed = seed::of_test("partings", seed::from_clock);
    let mut classes = Classes::default();
    match run::pairs(ENGINES, &mut Random::new(seed), ROUNDS, &mut classes) {
        Ok(agreed) => {
            say(&format!("partings: {} pairs of {} operations agreed\n{classes}", agreed.pairs, agreed.operations))
        }
        Err(disagreement) => panic!("seed {seed}: {disagreement}"),
    }
    let rare = classes.rare(LEAST);
    assert!(rare.is_empty(), "met fewer than {LEAST} times: {rare:#?}");
}

#[test]
fn cut_and_changed_at_each_byte() {
    let seed = seed::of_test("partings at each byte", seed::from_clock);
    match run::cuts(ENGINES, &mut Random::new(seed), RECORDINGS, &mut Classes::default()) {
        Ok(agreed) => say(&format!("partings at each byte: {} pairs agreed", agreed.pairs)),
        Err(disagreement) => panic!("seed {seed}: {disagreement}"),
    }
}

/// What is answered of two, on which all that is compared must agree.
#[track_caller]
fn compared(first: &[u8], second: &[u8]) -> [u64; 9] {
    let pair = Pair { first: first.to_vec(), second: second.to_vec() };
    pair.compare(ENGINES).unwrap_or_else(|how| panic!("{how}")).0
}

/// Long recordings: equal, unequal in the last operation, in the first, one of half as many operations, and bad at the end.
#[test]
fn long_recordings() {
    let mut random = Random::new(seed::of_test("long partings", seed::from_clock));
    let recording = Recording::of_any(&mut random, MANY);
    let (whole, length, many) = (&recording.bytes[..], recording.bytes.len() as u64, MANY as u64);
    assert_eq!(compared(whole, whole), [0, 0, 0, many, 0, 0, 1, length, 0]);
    let half = recording.starts[MANY / 2];
    let left = length - half as u64;
    assert_eq!(compared(whole, &whole[..half]), [0, 0, 0, many / 2, 2, 0, 1, half as u64, left]);
    let [before, behind] = [[&[7, 1], whole].concat(), [whole, &[7, 1]].concat()];
    let other = [whole, &[7, 2]].concat();
    assert_eq!(compared(&behind, &other), [0, 0, 0, many, 0, brb::DIFFERING_CYCLES, 1, length + 2, 0]);
    let changed = [&[7, 2], whole, &[7, 3]].concat();
    assert_eq!(compared(&before, &changed), [0, 0, 0, 0, 1, brb::DIFFERING_CYCLES, 2, length + 2, 2]);
    let cut = [whole, &[7]].concat();
    assert_eq!(compared(&before, &cut), [1, 2, length + 1, 0, 0, 0, 0, 0, 0]);
    assert_eq!(compared(&cut, &[11]), [1, 1, length + 1, 0, 0, 0, 0, 0, 0]);
}

/// The library takes up to 1,024 operations at once, half as many where their bytes are not the same, and the last sixty bytes in
/// another way: recordings that end, part or go bad around such numbers.
#[test]
fn many_operations_at_once() {
    const AROUND: [usize; 15] = [0, 1, 2, 511, 512, 513, 1_022, 1_023, 1_024, 1_025, 1_026, 2_047, 2_048, 2_049, 2_050];
    let mut random = Random::new(seed::of_test("partings of many at once", seed::from_clock));
    let recording = Recording::of_any(&mut random, 2_051);
    let part = |from: usize, to: usize| &recording.bytes[recording.starts[from]..recording.starts[to]];
    for (ends, place) in AROUND.into_iter().flat_map(|ends| AROUND.map(|place| (ends, place))) {
        let first = part(0, ends);
        compared(first, part(0, place));
        if place >= ends {
            continue;
        }
        // An operation in the place of another: two that can be read, one with a number that is not in the shortest form, and a
        // code that is none.
        let operations: [&[u8]; 4] = [&[7, 99], &[10, 0, 0, 1, 2, 3], &[7, 0x80, 0], &[11]];
        for operation in operations {
            let [front, behind] = [part(0, place), part(place + 1, ends)];
            compared(first, &[front, operation, behind].concat());
            compared(first, &[front, operation, behind, &[7, 0]].concat());
            compared(first, &[front, operation, &behind[..behind.len() / 2]].concat());
        }
    }
}

/// Numbers of every length and bad ones of every kind, at each place of each operation, with fewer and with more than sixty bytes
/// behind them: the library passes an operation that has sixty bytes there in another way than one that has not.
#[test]
fn every_edge_near_the_end_and_far_from_it() {
    let mut edges: Vec<Vec<u8>> = vec![vec![0x00], vec![0x0A], vec![0x0B], vec![0x7F]];
    for length in 1..=9 {
        edges.extend([0x00, 0x01, 0x02, 0x7F, 0x80].map(|last| [vec![0x80; length], vec![last]].concat()));
        edges.extend([0x00, 0x01, 0x7F].map(|last| [vec![0xFF; length], vec![last]].concat()));
    }
    edges.extend([vec![0xFF; 10], [vec![0xFF; 9], vec![0x81, 0x01]].concat()]);
    let behind = [7, 0].repeat(40);
    let lengths = [0, 1, 2, 40, 44, 46, 48, 49, 50, 51, 52, 53, 54, 55, 56, 57, 58, 59, 60, 61, 62, 80];
    for (code, place) in (0..=model::LAST_CODE).flat_map(|code| (0..6).map(move |place| (code, place))) {
        let own = 2 + model::own_fields(code).expect("a known code");
        let numbers = [code as u8, 1, 2, 3, 4, 5];
        for edge in edges.iter().filter(|_| place < own) {
            let operation = [&numbers[..place], edge, &numbers[place + 1..own]].concat();
            for length in lengths {
                let bytes = [&operation, &behind[..length]].concat();
                let [one, other] = [1, 2].map(|cycles| [&[7, cycles], &bytes[..]].concat());
                for [first, second] in [[&bytes, &bytes], [&one, &other]] {
                    let answers = ENGINES.map(|engine| engine.compared(first, second).0);
                    assert_eq!(answers[0], answers[1], "{first:x?} beside {second:x?}");
                }
            }
        }
    }
}

/// Nothing is written, so that the two may be parts of one memory: what is answered is what is answered of copies.
#[test]
fn parts_of_one_recording() {
    let mut random = Random::new(seed::of_test("partings in one memory", seed::from_clock));
    let recording = Recording::of_any(&mut random, 12);
    let whole = &recording.bytes[..];
    for (from, to) in (0..=whole.len()).flat_map(|from| (from..=whole.len()).map(move |to| (from, to))) {
        let part = &whole[from..to];
        let (answer, rest) = Library.compared(whole, part);
        assert_eq!(answer, compared(whole, part), "bytes {from} to {to}");
        let walks = [whole, part].map(|bytes| Walk::of(&Library, bytes));
        assert_eq!(answer, Walk::numbers(&walks, [whole, part]), "bytes {from} to {to}");
        assert_eq!(rest.len() as u64, answer[8], "bytes {from} to {to}");
    }
}
