//! Runs of recorded operations in one call, by the library and by the model, beside the library's single calls and in two
//! parts. `BRB_SEED` repeats a run.

mod planted;

use compare::batch::{run, Batching, Classes};
use compare::seed::{self, say};
use compare::{Library, Modelled, Random, Shares};
use model::Document01;

const ROUNDS: usize = 10_400;
/// Fewer cases of a class than this prove nothing.
const LEAST: u64 = 1_000;
/// Groups of outcomes of single calls, which other tests meet.
const NOT_HERE: [&str; 19] = [
    "answers",
    "events",
    "records",
    "counts after BRB IALL",
    "halts at each level",
    "resumes to each level",
    "what 8 refuses",
    "while halted",
    "counts and halts",
    "freezes",
    "differences of freezes",
    "freezes that do not happen",
    "accesses to BRBTS_EL1",
    "while frozen",
    "recorded events, by size and start",
    "reads of records, by their places",
    "what puts the start to 0",
    "what keeps a start that is not 0",
    "what 7 refuses by the start alone",
];

const ENGINES: [&dyn Batching; 2] = [&Library, &Modelled(Document01)];

#[test]
fn a_batch_is_the_single_calls() {
    let seed = seed::of_test("batches", seed::from_clock);
    let (mut classes, mut shares) = (Classes::default(), Shares::default());
    match run::batches(ENGINES, &mut Random::new(seed), ROUNDS, &mut classes, &mut shares) {
        Ok((batches, agreed)) => {
            say(&format!("batches: {batches}, and {agreed} operations that they answered, agreed\n{classes}{shares}"))
        }
        Err(disagreement) => panic!("seed {seed}: {disagreement}"),
    }
    let mut rare = classes.rare(LEAST);
    rare.extend(shares.rare(LEAST, &NOT_HERE));
    assert!(rare.is_empty(), "met fewer than {LEAST} times: {rare:#?}");
}
