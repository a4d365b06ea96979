//! Sums of counts by their encodings, by the library and by the model, beside the library's sums of the run in two parts and
//! what it decodes. `BRB_SEED` repeats a run.

use compare::seed::{self, say};
use compare::sums::{run, Classes, Counting, LentRun};
use compare::{Library, Modelled, Random};
use model::Document01;

const RUNS: usize = 40_000;
/// Fewer cases of a class than this prove nothing.
const LEAST: u64 = 1_000;
/// Encodings at the ends of what they stand for, and numbers near them that are none.
const EDGES: [u64; 13] = [0, 1, 0xFF, 0x100, 0x1FF, 0x200, 0x7C4, 0xCFF, 0xD00, 0x3FFE, 0x3FFF, 0x4000, u64::MAX];

const BOTH: [&dyn Counting; 2] = [&Library, &Modelled(Document01)];

#[test]
fn the_sum_of_a_run() {
    let seed = seed::of_test("sums", seed::from_clock);
    let mut classes = Classes::default();
    match run::sums(BOTH, &mut Random::new(seed), RUNS, &mut classes) {
        Ok(encodings) => say(&format!("sums: {RUNS} runs of {encodings} encodings agreed\n{classes}")),
        Err(disagreement) => panic!("seed {seed}: {disagreement}"),
    }
    let rare = classes.rare(LEAST);
    assert!(rare.is_empty(), "met fewer than {LEAST} times: {rare:#?}");
}

/// The sum of these, which library and model must agree on, with a number on each side that is not lent.
#[track_caller]
fn summed(encodings: &[u64]) -> [u64; 4] {
    let run =
        LentRun { before: vec![1], encodings: encodings.to_vec(), behind: vec![1], first_part: encodings.len() / 2 };
    run.compare(BOTH).unwrap_or_else(|how| panic!("{run}\n  {how}"))
}

#[test]
fn every_encoding_alone() {
    for cc in (0..0x1_0000).chain([u64::MAX]) {
        assert_eq!(summed(&[cc]), Library.decode(cc), "{cc:#x}");
    }
}

#[test]
fn edges_beside_each_other() {
    for (first, second) in EDGES.into_iter().flat_map(|first| EDGES.map(|second| (first, second))) {
        summed(&[first, second]);
        for third in EDGES {
            summed(&[first, second, third]);
        }
    }
}

/// A sum does not stop at 32 bits, nor where the running count does.
#[test]
fn long_runs() {
    let length = 1 << 20;
    let run = |cc: u64| vec![cc; length as usize];
    assert_eq!(summed(&run(0xCFF)), [0, 1_046_528 * length, 1_048_575 * length, 1]);
    assert_eq!(summed(&run(0x3FFF)), [0, 1_048_576 * length, 0, 0]);
    assert_eq!(summed(&[run(0xCFF), vec![0x3FFF]].concat()), [0, 1_046_528 * length + 1_048_576, 0, 0]);
    assert_eq!(summed(&[run(0x3FFF), vec![0xD00]].concat()), [4, 0, 0, 0]);
}
