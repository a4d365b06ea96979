//! The comparison is tried on models whose round buffer is wrong, each with one planted error; and so is the plain list of
//! records, which has no second engine beside it. `-- --nocapture` shows each shrunk case.

use compare::planted::{check_each, LONGEST, LONGEST_ROUND, OPERATIONS, SEED};
use compare::seed::{self, say};
use compare::{planted_rules, shifted, Engine, Random};
use model::{room, Answer, Document01, Event, Operation, Outcome, Record, Refusal, Rules, State};

/// A new record as it is, with something done to the room before it, which gets the new record's place.
fn pushed(state: &mut State, room: &mut [u64], record: Record, before: impl FnOnce(&mut [u64], usize)) {
    let place = Document01.new_place(state.size, state.start);
    before(room, place);
    Document01.push(state, room, record);
}

/// A start that is taken as sound, at a place that the size has: a wrong model answers where 7 is right, and writes nothing
/// past its records.
fn taken(size: usize, start: u64) -> Option<usize> {
    Some((start as usize).min(size.saturating_sub(1)))
}

planted_rules! {
    ("a new record goes one place above the start", StartUp {
        fn new_place(&self, size: usize, start: usize) -> usize {
            if start + 1 == size { 0 } else { start + 1 }
        }
    })
    ("at start 0 a new record goes to the last place but one", LastButOne {
        fn new_place(&self, size: usize, start: usize) -> usize {
            if start == 0 { size - 2 } else { start - 1 }
        }
    })
    ("at start 0 a new record stays there", StaysAt0 {
        fn new_place(&self, _: usize, start: usize) -> usize {
            start.saturating_sub(1)
        }
    })
    ("at start 0 a new record is written past the last place", PastTheLast {
        fn push(&self, state: &mut State, room: &mut [u64], record: Record) {
            let (size, fits) = (state.size, room.len() >= room::needed(state.size + 1));
            if state.start == 0 && fits {
                room::write(room, size, record);
                state.start = size - 1;
            } else {
                Document01.push(state, room, record);
            }
        }
    })
    ("a new record goes round at start 1", RoundAt1 {
        fn new_place(&self, size: usize, start: usize) -> usize {
            if start <= 1 { size - 1 } else { start - 1 }
        }
    })
    ("a new record is written where the one before it stands", WrittenAtStart {
        fn push(&self, state: &mut State, room: &mut [u64], record: Record) {
            room::write(room, state.start, record);
            state.start = self.new_place(state.size, state.start);
        }
    })
    ("a new record does not move the start", StartNotMoved {
        fn push(&self, state: &mut State, room: &mut [u64], record: Record) {
            let start = state.start;
            Document01.push(state, room, record);
            state.start = start;
        }
    })
    ("a new record moves the others up as well", AlsoShifts {
        fn push(&self, state: &mut State, room: &mut [u64], record: Record) {
            let size = state.size;
            pushed(state, room, record, |room, _| room.copy_within(..room::needed(size - 1), 3));
        }
    })
    ("a new record clears the place below it", BelowCleared {
        fn push(&self, state: &mut State, room: &mut [u64], record: Record) {
            let size = state.size;
            pushed(state, room, record, |room, place| room::write(room, Document01.new_place(size, place), [0; 3]));
        }
    })
    ("a new record clears the one before it", BeforeCleared {
        fn push(&self, state: &mut State, room: &mut [u64], record: Record) {
            let start = state.start;
            pushed(state, room, record, |room, _| room::write(room, start, [0; 3]));
        }
    })
    ("an event that is no record moves the start", MovedByEveryEvent {
        fn happen(&self, state: &mut State, room: &mut [u64], event: Event) {
            if self.recorded(state, &event).is_none() {
                state.start = self.new_place(state.size, state.start);
            }
            Document01.happen(state, room, event);
        }
    })
    ("a refused operation moves the start", MovedByRefusal {
        fn step(&self, state: &mut [u64], room: &mut [u64], numbers: [u64; 6]) -> Answer {
            let answer = Document01.step(state, room, numbers);
            let sound = Document01.sound(state).filter(|state| state.size != 0);
            if let (Answer::Refused(_), Some(mut after)) = (answer, sound) {
                after.start = self.new_place(after.size, after.start);
                after.store(state);
            }
            answer
        }
    })
    ("a reset keeps the start", StartAfterReset {
        fn start_after_reset(&self, state: &State) -> usize {
            state.start
        }
    })
    ("a reset clears the places of the size before it too", OldSizeCleared {
        fn reset(&self, state: &mut State, room: &mut [u64], size: usize, v1p1: bool) {
            let before = room::needed(state.size).min(room.len());
            Document01.reset(state, room, size, v1p1);
            room[..before].fill(0);
        }
    })
    ("BRB IALL keeps the start", StartAfterIall {
        fn start_after_iall(&self, state: &State, _: Outcome) -> usize {
            state.start
        }
    })
    ("a trapped BRB IALL puts the start to 0", StartAfterTrapped {
        fn start_after_iall(&self, state: &State, outcome: Outcome) -> usize {
            if outcome == Outcome::Undefined { state.start } else { 0 }
        }
    })
    ("an undefined BRB IALL puts the start to 0", StartAfterUndefined {
        fn start_after_iall(&self, state: &State, outcome: Outcome) -> usize {
            if matches!(outcome, Outcome::Trap2 | Outcome::Trap3) { state.start } else { 0 }
        }
    })
    ("BRB IALL clears no place before the start", ClearedFromStart {
        fn iall(&self, state: &mut State, room: &mut [u64]) -> Answer {
            let before = room[..room::needed(state.start)].to_vec();
            let answer = Document01.iall(state, room);
            room[..before.len()].copy_from_slice(&before);
            answer
        }
    })
    ("a record is read at the place of its number", ReadWithoutStart {
        fn place(&self, _: usize, _: usize, record: usize) -> usize {
            record
        }
    })
    ("reads go round one place early", ReadRoundEarly {
        fn place(&self, size: usize, start: usize, record: usize) -> usize {
            if start + record + 1 < size { start + record } else { start + record + 1 - size }
        }
    })
    ("reads go round one place late", ReadRoundLate {
        fn place(&self, size: usize, start: usize, record: usize) -> usize {
            if start + record <= size { start + record } else { start + record - size }
        }
    })
    ("reads go round at 64", ReadRoundAt64 {
        fn place(&self, _: usize, start: usize, record: usize) -> usize {
            (start + record) % 64
        }
    })
    ("reads go round within a bank", ReadRoundWithinBank {
        fn place(&self, size: usize, start: usize, record: usize) -> usize {
            32 * (record / 32) + (start + record % 32) % size.min(32)
        }
    })
    ("reads go back from the start", ReadBackwards {
        fn place(&self, size: usize, start: usize, record: usize) -> usize {
            (start + size - record) % size
        }
    })
    ("a start is judged by 64", StartBelow64 {
        fn sound_start(&self, size: usize, start: u64) -> Option<usize> {
            if size != 0 && start < 64 { taken(size, start) } else { Document01.sound_start(size, start) }
        }
    })
    ("a start that is the size is sound", StartIsSize {
        fn sound_start(&self, size: usize, start: u64) -> Option<usize> {
            if start == size as u64 { taken(size, start) } else { Document01.sound_start(size, start) }
        }
    })
    ("a start that is not 0 is sound before a reset", StartBeforeReset {
        fn sound_start(&self, size: usize, start: u64) -> Option<usize> {
            if size == 0 { taken(size, start) } else { Document01.sound_start(size, start) }
        }
    })
    ("a start loses its upper bits", StartCutOff {
        fn sound_start(&self, size: usize, start: u64) -> Option<usize> {
            Document01.sound_start(size, start & 0xFFFF_FFFF)
        }
    })
    ("a reset is accepted whatever the start is", UnsoundStartReset {
        fn accept(&self, state: &[u64], room: usize, numbers: [u64; 6]) -> Result<(State, Operation), Refusal> {
            let mut at_0 = state.to_vec();
            if let (0, Some(start)) = (numbers[0], at_0.get_mut(11)) {
                *start = 0;
            }
            Document01.accept(&at_0, room, numbers)
        }
    })
    ("a state of eleven numbers is enough", ElevenNumbers {
        fn step(&self, state: &mut [u64], room: &mut [u64], numbers: [u64; 6]) -> Answer {
            if state.len() != 11 {
                return Document01.step(state, room, numbers);
            }
            let mut twelve = [&state[..], &[0]].concat();
            let answer = Document01.step(&mut twelve, room, numbers);
            state.copy_from_slice(&twelve[..11]);
            answer
        }
    })
}

/// What shows on states alone to which no sequence leads: unsound ones, and one that is too short.
const NOT_IN_SEQUENCES: [&str; 6] = [
    "a start is judged by 64",
    "a start that is the size is sound",
    "a start that is not 0 is sound before a reset",
    "a start loses its upper bits",
    "a reset is accepted whatever the start is",
    "a state of eleven numbers is enough",
];

/// What shows no sooner than where records stand at nearly every place, or does so in a room that has no number past them, so
/// that its case may not be as short.
const AFTER_A_ROUND: [&str; 5] = [
    "a new record goes round at start 1",
    "a new record clears the place below it",
    "BRB IALL clears no place before the start",
    "reads go round one place late",
    "reads go round at 64",
];

/// The planted errors, of these words or of all others.
fn planted(words: &[&str], of_these: bool) -> Vec<(&'static str, &'static dyn Engine)> {
    let chosen: Vec<_> = PLANTED.iter().copied().filter(|(word, _)| words.contains(word) == of_these).collect();
    assert!(!of_these || chosen.len() == words.len(), "each of these words is one of a planted error");
    chosen
}

#[test]
fn each_planted_error_of_the_round_buffer_is_found_and_shrunk() {
    check_each("planted errors of the round buffer", &planted(&AFTER_A_ROUND, false), LONGEST);
    check_each("planted errors that show after a round", &planted(&AFTER_A_ROUND, true), LONGEST_ROUND);
}

/// The plain list tells these errors of one engine alone.
#[test]
fn each_planted_error_of_the_round_buffer_is_told_by_the_list() {
    let seed = seed::of_test("planted errors of the round buffer, by the list", || SEED);
    let in_sequences = planted(&NOT_IN_SEQUENCES, false);
    let mut missed = Vec::new();
    for &(words, wrong) in &in_sequences {
        match shifted::explore(wrong, &mut Random::new(seed), OPERATIONS) {
            Ok(_) => missed.push(format!("{words}: not told")),
            Err((sequence, how)) => {
                println!("by the list: {words}\n  {how}\n  {sequence}");
                let most = if AFTER_A_ROUND.contains(&words) { LONGEST_ROUND } else { LONGEST };
                if sequence.calls.len() > most {
                    missed.push(format!("{words}: shrunk to {} operations only", sequence.calls.len()));
                }
            }
        }
    }
    assert!(missed.is_empty(), "{missed:#?}");
    say(&format!("planted errors of the round buffer: {} told by the list alone", in_sequences.len()));
}
