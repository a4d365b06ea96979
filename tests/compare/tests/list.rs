//! The program `list` beside the model: its lines, byte for byte, and the byte that it names where a recording is malformed.
//! It is built with the proofs; where it is not there, the tests say so and pass. `BRB_SEED` repeats a run.

use compare::generate;
use compare::programs::across::{filled_up_to, LARGEST, LONGEST_BRANCH};
use compare::programs::{bad, disagreement, edges, every_way, pieces, Listed, Program, Way, PIECE};
use compare::recording::{damage, Recording};
use compare::seed::{self, say};
use compare::{Call, Random};
use model::lines::Form;
use model::Document01;

const RANDOM_RECORDINGS: usize = 30;
const DAMAGED_RECORDINGS: usize = 60;
const MANY: usize = 200_000;

struct List(Program);

impl List {
    fn of_test(test: &str) -> Option<List> {
        Program::of_test("list", test, env!("CARGO_TARGET_TMPDIR")).map(List)
    }

    /// In both forms it must print what the model prints.
    fn check(&self, bytes: &[u8], ways: &[Way]) {
        for (way, form) in ways.iter().flat_map(|way| Form::BOTH.map(|form| (way, form))) {
            self.check_form(bytes, way, form);
        }
    }

    fn check_form(&self, bytes: &[u8], way: &Way, form: Form) {
        let how = |listed: &Listed| listed.difference(&listed.output(&self.0, way), &Document01);
        if let Some(shrunk) = disagreement(Listed { bytes: bytes.to_vec(), form }, how) {
            panic!("{way:?}, a recording of {} bytes, shrunk to {shrunk}", bytes.len());
        }
    }
}

#[test]
fn nothing_and_every_operation_at_every_edge() {
    let Some(list) = List::of_test("list of every operation") else { return };
    let mut random = Random::new(seed::of_test("list of every operation", seed::from_clock));
    list.check(&[], &every_way(&mut random, 0));
    let recording = Recording::of(&edges::operations(&mut random));
    list.check(&recording.bytes, &every_way(&mut random, recording.bytes.len()));
    say(&format!("list of every operation: {} printed as the model prints", recording.calls.len()));
}

#[test]
fn random_recordings() {
    let Some(list) = List::of_test("list of random recordings") else { return };
    let mut random = Random::new(seed::of_test("list of random recordings", seed::from_clock));
    let mut operations = 0;
    for _ in 0..RANDOM_RECORDINGS {
        let length = generate::length(&mut random);
        for recording in [Recording::random(&mut random, 192, length), Recording::of_any(&mut random, length)] {
            list.check(&recording.bytes, &every_way(&mut random, recording.bytes.len()));
            operations += length;
        }
    }
    say(&format!("list of random recordings: {operations} operations printed as the model prints"));
}

#[test]
fn a_recording_of_many_operations() {
    let Some(list) = List::of_test("list of many operations") else { return };
    let mut random = Random::new(seed::of_test("list of many operations", seed::from_clock));
    let recording = Recording::of_any(&mut random, MANY);
    list.check(&recording.bytes, &[Way::File, pieces(&mut random, recording.bytes.len())]);
    let bad = recording.numbers().last().expect("there is a number").start;
    let damaged = [&recording.bytes[..bad], &[0x80, 0x00]].concat();
    list.check_form(&damaged, &Way::Input, Form::Readable);
    say(&format!("list of many operations: {MANY} printed as the model prints"));
}

#[test]
fn bad_numbers_at_every_place() {
    let Some(list) = List::of_test("list of bad numbers") else { return };
    let mut random = Random::new(seed::of_test("list of bad numbers", seed::from_clock));
    let recordings = bad::recordings(&mut random);
    for bytes in &recordings {
        let way = if random.percent(50) { Way::File } else { Way::Input };
        list.check_form(bytes, &way, random.one_of(&Form::BOTH));
    }
    say(&format!("list of bad numbers: {} recordings printed as the model prints", recordings.len()));
}

#[test]
fn damaged_recordings() {
    let Some(list) = List::of_test("list of damaged recordings") else { return };
    let mut random = Random::new(seed::of_test("list of damaged recordings", seed::from_clock));
    for _ in 0..DAMAGED_RECORDINGS {
        let length = 1 + generate::length(&mut random).min(512);
        let recording = Recording::random(&mut random, 192, length);
        let cut = random.below(recording.bytes.len() as u64) as usize;
        let damaged = [damage::anywhere(&recording, &mut random), damage::noise(&mut random)];
        for bytes in [&recording.bytes[..cut], &damaged[0], &damaged[1]] {
            list.check(bytes, &[pieces(&mut random, bytes.len())]);
        }
    }
    say(&format!("list of damaged recordings: {} printed as the model prints", 3 * DAMAGED_RECORDINGS));
}

/// Each byte of a branch once falls on a piece's end, whole, cut there, and with a bad number there.
#[test]
fn operations_across_the_end_of_a_piece() {
    let Some(list) = List::of_test("list across pieces") else { return };
    for (before, form) in (0..=LONGEST_BRANCH).zip(Form::BOTH.into_iter().cycle()) {
        let mut recording = filled_up_to(PIECE - before);
        recording.push(LARGEST);
        recording.push(Call([7, 2, 0, 0, 0, 0]));
        let mut bad = recording.bytes.clone();
        bad[PIECE - before + 1..][..10].fill(0xFF);
        for bytes in [&recording.bytes[..], &recording.bytes[..PIECE], &bad] {
            list.check_form(bytes, &Way::Pieces(vec![PIECE]), form);
        }
    }
    say(&format!("list across pieces: {} recordings printed as the model prints", 3 * (LONGEST_BRANCH + 1)));
}
