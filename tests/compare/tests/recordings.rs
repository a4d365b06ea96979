//! Recordings by the library and by the model: written, read back, damaged, and stepped along. `BRB_SEED` repeats a run.

use compare::generate;
use compare::recording::{make, run, Classes, Recording};
use compare::seed::{self, say};
use compare::{Call, Engine, Library, Modelled, Random, Sequence};
use model::Document01;

const OPERATIONS: u64 = 1_000_000;
const READINGS: u64 = 1_500_000;
const DAMAGED_RECORDINGS: usize = 300;
/// Fewer cases of a class than this prove nothing.
const LEAST: u64 = 1_000;

const ENGINES: [&dyn Engine; 2] = [&Library, &Modelled(Document01)];

/// Recordings of random operations, half of them as a processor might send them, until there were so many operations.
fn recordings(random: &mut Random, operations: u64, mut each: impl FnMut(&mut Random, Recording)) -> u64 {
    let (mut done, mut recordings) = (0, 0);
    while done < operations {
        let length = generate::length(random);
        let recording = match recordings % 2 {
            0 => Recording::random(random, 200, length),
            _ => Recording::of_any(random, length),
        };
        each(random, recording);
        done += length as u64;
        recordings += 1;
    }
    recordings
}

/// Writes operations one after another into as many bytes as they need; one more has no room.
fn written(engine: &dyn Engine, calls: &[Call], length: usize) -> Vec<u8> {
    let (mut bytes, mut at) = (vec![0xEE; length], 0);
    for &call in calls {
        let (number, value) = engine.recording_write(&mut bytes, at, call);
        assert_eq!(number, 0, "{}: {call} at {at} of {length} bytes", engine.name());
        at += value as usize;
    }
    assert_eq!(at, length, "{}: bytes written", engine.name());
    assert_eq!(engine.recording_write(&mut bytes, at, Call([7, 0, 0, 0, 0, 0])), (6, 0));
    bytes
}

/// Reads operations one after another to the end, into a place of so many numbers.
fn check_read_back(engine: &dyn Engine, recording: &Recording, place_numbers: usize) {
    let mut at = 0;
    for &call in &recording.calls {
        let mut place = vec![u64::MAX; place_numbers];
        let (number, next) = engine.recording_read(&recording.bytes, at, &mut place);
        let (read, past) = place.split_at(6);
        assert_eq!((number, read), (0, &make::as_read(call)[..]), "{}: {call} at {at}", engine.name());
        assert!(past.iter().all(|&number| number == u64::MAX), "{}: only six numbers are written", engine.name());
        at = next as usize;
    }
    assert_eq!(at, recording.bytes.len(), "{}: nothing is left over", engine.name());
    assert_eq!(engine.recording_read(&recording.bytes, at, &mut [0; 6]), (1, 0));
}

#[test]
fn what_is_written_is_read_back_with_nothing_left_over() {
    let mut random = Random::new(seed::of_test("recordings", seed::from_clock));
    let done = recordings(&mut random, OPERATIONS, |random, recording| {
        let place_numbers = 6 + random.below(3) as usize;
        for engine in ENGINES {
            let bytes = written(engine, &recording.calls, recording.bytes.len());
            assert!(bytes == recording.bytes, "{}: the same bytes", engine.name());
            check_read_back(engine, &recording, place_numbers);
        }
    });
    say(&format!("recordings: {OPERATIONS} operations in {done} recordings written and read back"));
}

#[test]
fn operations_written_at_any_position() {
    let seed = seed::of_test("written operations", seed::from_clock);
    let mut classes = Classes::default();
    match run::writings(ENGINES, &mut Random::new(seed), OPERATIONS, &mut classes) {
        Ok(agreed) => say(&format!("written operations: {agreed} agreed\n{classes}")),
        Err(disagreement) => panic!("seed {seed}: {disagreement}"),
    }
    let rare = classes.rarely_written(LEAST);
    assert!(rare.is_empty(), "met fewer than {LEAST} times: {rare:#?}");
}

#[test]
fn operations_read_on_any_state_and_damaged_recordings() {
    let seed = seed::of_test("read and damaged", seed::from_clock);
    let (mut random, mut classes) = (Random::new(seed), Classes::default());
    let read = run::readings(ENGINES, &mut random, READINGS, &mut classes);
    let damaged = read.and_then(|read| {
        let damaged = run::damaged(ENGINES, &mut random, DAMAGED_RECORDINGS, &mut classes)?;
        Ok((read, damaged))
    });
    match damaged {
        Ok((read, damaged)) => say(&format!(
            "read and damaged: {read} operations on any state and {damaged} of {DAMAGED_RECORDINGS} damaged \
             recordings agreed\n{classes}"
        )),
        Err(disagreement) => panic!("seed {seed}: {disagreement}"),
    }
    let rare = classes.rarely_read(LEAST);
    assert!(rare.is_empty(), "met fewer than {LEAST} times: {rare:#?}");
}

/// The library along a recording, beside the model along it, and beside single steps of the library.
#[test]
fn recorded_steps_are_the_steps() {
    let mut random = Random::new(seed::of_test("recorded steps", seed::from_clock));
    recordings(&mut random, OPERATIONS, |random, recording| {
        let room = generate::room(random);
        let [mut by_library, mut by_model, mut single] = [(); 3].map(|()| Sequence::fresh(room));
        let mut at = 0;
        for (place, &call) in recording.calls.iter().enumerate() {
            let step = Library.step_recorded(&mut by_library.state, &mut by_library.room, &recording.bytes, at);
            let model = ENGINES[1].step_recorded(&mut by_model.state, &mut by_model.room, &recording.bytes, at);
            let answer = Library.step(&mut single.state, &mut single.room, call);
            let next = recording.starts.get(place + 1).copied().unwrap_or(recording.bytes.len());
            assert_eq!(step, (answer, next as u64), "{call} at {at}");
            assert_eq!(model, step, "{call} at {at}");
            assert!(by_library == single && by_library == by_model, "{call} at {at}: state and room");
            at = next;
        }
    });
    say(&format!("recorded steps: {OPERATIONS} agreed with single steps"));
}
