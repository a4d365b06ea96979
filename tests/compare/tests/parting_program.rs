//! The program `compare` beside the model: its lines and its numbers, byte for byte; the file, the byte and the operation that it
//! names where a recording is damaged; and, through the launcher, its status. It is built with the proofs; where it is not there,
//! the tests say so and pass. `BRB_SEED` repeats a run.

use compare::parting::{Maker, Pair};
use compare::programs::across::{filled_up_to, LARGEST, LONGEST_BRANCH};
use compare::programs::{disagreement, pieces, By, Compared, Comparer, Given, Way, PIECE};
use compare::recording::Recording;
use compare::seed::{self, say};
use compare::{Call, Random};
use model::comparison::Which;
use model::lines::Form;
use model::{Document01, Findings};

const ROUNDS: usize = 2;
/// Of the unequal pairs of a round one of so many goes through the launcher.
const THROUGH_LAUNCHER: usize = 3;
const MANY: usize = 200_000;

struct Compare(Comparer);

impl Compare {
    fn of_test(test: &str) -> Option<Compare> {
        Comparer::of_test(test, env!("CARGO_TARGET_TMPDIR")).map(Compare)
    }

    /// By itself it must print what the model prints.
    fn check(&self, pair: &Pair, form: Form, given: &Given) {
        let how = |compared: &Compared| {
            let output = compared.output(&self.0, By::Itself, given);
            compared.difference(&output, &self.0.names(given), &Document01)
        };
        self.agreed(pair, form, given, how);
    }

    /// Through the launcher it must print the same, with the model's status.
    fn check_status(&self, pair: &Pair, form: Form, given: &Given) {
        let how = |compared: &Compared| {
            let output = compared.output(&self.0, By::Launcher, given);
            compared.difference_by_launcher(&output, &self.0.names(given), &Document01)
        };
        self.agreed(pair, form, given, how);
    }

    fn agreed(&self, pair: &Pair, form: Form, given: &Given, how: impl Fn(&Compared) -> Option<String>) {
        if let Some(shrunk) = disagreement(Compared { pair: pair.clone(), form }, how) {
            let lengths = [&pair.first, &pair.second].map(Vec::len);
            panic!("{given:?}, recordings of {lengths:?} bytes, shrunk to {shrunk}");
        }
    }
}

/// One of the two as standard input, in pieces.
fn in_pieces(random: &mut Random, pair: &Pair, which: Which) -> Given {
    let Way::Pieces(lengths) = pieces(random, which.of([&pair.first, &pair.second]).len()) else {
        unreachable!("it comes in pieces")
    };
    Given::Input(which, lengths)
}

fn every_given(random: &mut Random, pair: &Pair) -> [Given; 3] {
    [Given::Files, in_pieces(random, pair, Which::First), in_pieces(random, pair, Which::Second)]
}

#[test]
fn pairs_of_every_kind() {
    let Some(compare) = Compare::of_test("compare of every kind") else { return };
    let mut random = Random::new(seed::of_test("compare of every kind", seed::from_clock));
    let maker = Maker::new(&mut random);
    let pairs: Vec<Pair> = (0..ROUNDS).flat_map(|_| maker.round(&mut random)).collect();
    for pair in &pairs {
        for given in every_given(&mut random, pair) {
            compare.check(pair, random.one_of(&Form::BOTH), &given);
        }
    }
    say(&format!("compare of every kind: {} pairs printed as the model prints", pairs.len()));
}

#[test]
fn statuses_through_the_launcher() {
    let Some(compare) = Compare::of_test("compare through the launcher") else { return };
    let mut random = Random::new(seed::of_test("compare through the launcher", seed::from_clock));
    let maker = Maker::new(&mut random);
    // How often each status was met.
    let mut met = [0; 3];
    for (place, pair) in maker.round(&mut random).iter().enumerate() {
        let status = Document01.found(&pair.first, &pair.second, Form::Numbers).status;
        // Few pairs are equal.
        if status == 0 || place % THROUGH_LAUNCHER == 0 {
            let given = &every_given(&mut random, pair)[random.below(3) as usize];
            compare.check_status(pair, random.one_of(&Form::BOTH), given);
            met[status as usize] += 1;
        }
    }
    assert!(met.iter().all(|&met| met > 0), "each status is met: {met:?}");
    let [equal, different, damaged] = met;
    say(&format!(
        "compare through the launcher: {equal} equal, {different} different and {damaged} damaged pairs, each with its status"
    ));
}

/// Equal, unequal in the last operation, in the first, one of half as many operations, and damaged at the end.
#[test]
fn recordings_of_many_operations() {
    let Some(compare) = Compare::of_test("compare of many operations") else { return };
    let mut random = Random::new(seed::of_test("compare of many operations", seed::from_clock));
    let recording = Recording::of_any(&mut random, MANY);
    let whole = &recording.bytes[..];
    let [first, last] = [[&[7, 1], whole].concat(), [whole, &[7, 1]].concat()];
    let others = [
        [whole.to_vec(), whole.to_vec()],
        [last.clone(), [whole, &[7, 2]].concat()],
        [first.clone(), [&[7, 0x81, 1], whole].concat()],
        [whole[..recording.starts[MANY / 2]].to_vec(), whole.to_vec()],
        [first, [whole, &[5, 0]].concat()],
        [[whole, &[7, 0x80, 0]].concat(), vec![11]],
    ];
    for [first, second] in others {
        let pair = Pair { first, second };
        for given in every_given(&mut random, &pair) {
            compare.check(&pair, random.one_of(&Form::BOTH), &given);
        }
        compare.check_status(&pair, Form::Readable, &Given::Files);
    }
    say(&format!("compare of many operations: pairs of {MANY} printed as the model prints"));
}

/// The program takes up to 64 operations at once: recordings that end, part or go bad around such a number.
#[test]
fn many_pairs_at_once() {
    const AROUND: [usize; 10] = [0, 1, 2, 62, 63, 64, 65, 66, 128, 129];
    let Some(compare) = Compare::of_test("compare of many at once") else { return };
    let mut random = Random::new(seed::of_test("compare of many at once", seed::from_clock));
    let recording = Recording::of_any(&mut random, 130);
    let part = |from: usize, to: usize| &recording.bytes[recording.starts[from]..recording.starts[to]];
    let mut pairs = Vec::new();
    for (ends, place) in AROUND.into_iter().flat_map(|ends| AROUND.map(|place| (ends, place))) {
        pairs.push([part(0, ends).to_vec(), part(0, place).to_vec()]);
        if place < ends {
            let operations: [&[u8]; 3] = [&[7, 99], &[7, 0x80, 0], &[11]];
            for operation in operations {
                let behind = part(place + 1, ends);
                pairs.push([part(0, ends).to_vec(), [part(0, place), operation, behind, &[7, 0]].concat()]);
                pairs.push([[part(0, place), operation, &behind[..behind.len() / 2]].concat(), part(0, ends).to_vec()]);
            }
        }
    }
    for [first, second] in &pairs {
        let pair = Pair { first: first.clone(), second: second.clone() };
        let given = &every_given(&mut random, &pair)[random.below(3) as usize];
        compare.check(&pair, random.one_of(&Form::BOTH), given);
    }
    say(&format!("compare of many at once: {} pairs printed as the model prints", pairs.len()));
}

/// Each byte of a branch once falls on a piece's end, whole, cut there, and with a bad number there; the other recording has it
/// there too, or some bytes behind.
#[test]
fn operations_across_the_end_of_a_piece() {
    let Some(compare) = Compare::of_test("compare across pieces") else { return };
    let mut pairs = 0;
    for (before, form) in (0..=LONGEST_BRANCH).zip(Form::BOTH.into_iter().cycle()) {
        let mut recording = filled_up_to(PIECE - before);
        recording.push(LARGEST);
        recording.push(Call([7, 2, 0, 0, 0, 0]));
        let (whole, behind) = (recording.bytes.clone(), [&[7, 0x81, 1], &recording.bytes[..]].concat());
        let mut bad = whole.clone();
        bad[PIECE - before + 1..][..10].fill(0xFF);
        for (first, which) in [&whole[..], &whole[..PIECE], &bad].into_iter().zip(Which::BOTH.into_iter().cycle()) {
            for second in [&whole, &behind] {
                let pair = Pair { first: first.to_vec(), second: second.clone() };
                compare.check(&pair, form, &Given::Input(which, vec![PIECE]));
                pairs += 1;
            }
        }
    }
    say(&format!("compare across pieces: {pairs} pairs printed as the model prints"));
}
