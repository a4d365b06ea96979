//! The library and the model agree, and the library keeps demand 3. `BRB_SEED` repeats a run.

use compare::seed::{self, say};
use compare::sums::Counting;
use compare::{demand3, run, Engine, Library, Modelled, Random, Shares};
use model::Document01;

const SEQUENCE_OPERATIONS: u64 = 8_000_000;
const SINGLE_CALLS: u64 = 4_000_000;
const DEMAND_3_OPERATIONS: u64 = 3_000_000;
/// Fewer cases of a class than this prove nothing.
const LEAST: u64 = 1_000;

/// What no sequence from a fresh state meets.
const NOT_IN_SEQUENCES: [&str; 4] =
    ["refused 7", "unsound states", "where 6 would follow", "what 7 refuses by the start alone"];

const ENGINES: [&dyn Engine; 2] = [&Library, &Modelled(Document01)];

fn report(test: &str, agreed: u64, shares: &Shares, except: &[&str]) {
    say(&format!("{test}: {agreed} operations agreed\n{shares}"));
    let rare = shares.rare(LEAST, except);
    assert!(rare.is_empty(), "met fewer than {LEAST} times: {rare:#?}");
}

#[test]
fn sequences_from_a_fresh_state() {
    let seed = seed::of_test("sequences", seed::from_clock);
    let mut shares = Shares::default();
    match run::sequences(ENGINES, &mut Random::new(seed), SEQUENCE_OPERATIONS, &mut shares) {
        // From a fresh state no state is ever unsound, and no room too short for it.
        Ok(agreed) => report("sequences", agreed, &shares, &NOT_IN_SEQUENCES),
        Err(disagreement) => panic!("seed {seed}: {disagreement}"),
    }
}

#[test]
fn single_calls_on_any_state() {
    let seed = seed::of_test("single calls", seed::from_clock);
    let mut shares = Shares::default();
    match run::singles(ENGINES, &mut Random::new(seed), SINGLE_CALLS, &mut shares) {
        // What came since the last record is a sequence's.
        Ok(agreed) => {
            report("single calls", agreed, &shares, &["counts after BRB IALL", "counts and halts", "while frozen"])
        }
        Err(disagreement) => panic!("seed {seed}: {disagreement}"),
    }
}

#[test]
fn demand_3_by_exact_bookkeeping() {
    let seed = seed::of_test("demand 3", seed::from_clock);
    match demand3::explore(&Library, &mut Random::new(seed), DEMAND_3_OPERATIONS) {
        Ok(demand3::Kept { stretches, spread, to_halts, from_resumes }) => {
            say(&format!("demand 3: {DEMAND_3_OPERATIONS} operations, {stretches} stretches of records kept it"));
            say(&format!("demand 3: the sums of {spread} of these stretches have two ends that differ"));
            say(&format!("demand 3: {to_halts} end with a halt's record, {from_resumes} begin with a resume's"));
            let exact = stretches - spread;
            assert!(spread >= LEAST && exact >= LEAST, "only {spread} with two ends that differ, {exact} without");
            assert!(
                to_halts >= LEAST && from_resumes >= LEAST,
                "only {to_halts} to halts, {from_resumes} from resumes"
            );
        }
        Err((sequence, how)) => panic!("seed {seed}: demand 3 is broken: {how}\n  {sequence}"),
    }
}

#[test]
fn every_count_and_encoding() {
    let seed = seed::of_test("counts", seed::from_clock);
    let mut random = Random::new(seed);
    let beyond: Vec<u64> = (0..1_000_000).map(|_| random.of_length(64)).chain([u64::MAX]).collect();
    for count in (0..1_100_000).chain(beyond.iter().copied()) {
        assert_eq!(brb::count_encode(count), model::count::encode(count), "count {count}");
    }
    for cc in (0..0x2_0000).chain(beyond) {
        assert_eq!(Library.decode(cc), Modelled(Document01).decode(cc), "encoding {cc:#x}");
    }
}
