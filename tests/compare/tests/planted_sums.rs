//! The comparison of sums is tried on wrong models, each with one planted error: it must find the error and shrink the run
//! to an encoding or two. `-- --nocapture` shows each shrunk case.

use compare::planted::{check_found, SEED};
use compare::seed;
use compare::sums::{run, Classes, Counting, LentRun};
use compare::{Library, Modelled, Random};
use model::count::{Spread, EXCEEDED, LIMIT};
use model::{Counts, Document01, Refusal};

/// How many runs an error may hide from.
const RUNS: usize = 1_000;
/// A shrunk run has at most so many encodings, and nothing around them.
const LONGEST: usize = 2;

/// A list of wrong models, each by the words that say what is wrong and the rules of spreads and sums that it changes.
macro_rules! planted {
    ($list:ident: $(($words:literal, $name:ident { $($rule:tt)* }))*) => {
        $(
            struct $name;
            impl Counts for $name { $($rule)* }
        )*
        const $list: &[(&str, &dyn Counting)] = &[$(($words, &Modelled($name))),*];
    };
}

/// What the encodings of a run are decoded to.
type Spreads = Result<Vec<Spread>, Refusal>;

/// The encodings up to the first that exceeded, with it, and those behind it.
fn parted(run: &[u64]) -> (&[u64], &[u64]) {
    run.split_at(run.iter().position(|&cc| cc == EXCEEDED).map_or(run.len(), |place| place + 1))
}

planted! { OF_ENCODINGS:
    ("the upper end is one too large", LargestOneMore {
        fn largest(&self, smallest: u64, exponent: u64) -> u64 {
            Document01.largest(smallest, exponent) + 1
        }
    })
    ("the upper end is one too small", LargestOneLess {
        fn largest(&self, smallest: u64, exponent: u64) -> u64 {
            Document01.largest(smallest, exponent) - 1
        }
    })
    ("the upper end is that of the next exponent", LargestOfNext {
        fn largest(&self, smallest: u64, exponent: u64) -> u64 {
            Document01.largest(smallest, exponent + 1)
        }
    })
    ("E 0 has a spread", SpreadOfE0 {
        fn unshared(&self, mantissa: u64) -> Spread {
            Spread { smallest: mantissa, largest: Some(mantissa + 1) }
        }
    })
    ("a count that exceeded has an upper end", ExceededBounded {
        fn exceeded(&self) -> Spread {
            Spread { smallest: LIMIT, largest: Some(LIMIT) }
        }
    })
    ("an encoding loses the bits above its own", UpperBitsLost {
        fn decode(&self, cc: u64) -> Result<Spread, Refusal> {
            Document01.decode(cc & 0x3FFF)
        }
    })
    ("no upper end is answered as the largest number", LargestNumber {
        fn numbers(&self, spread: Result<Spread, Refusal>) -> [u64; 4] {
            let [number, low, high, bounded] = Document01.numbers(spread);
            let unbounded = number == 0 && bounded == 0;
            [number, low, if unbounded { u64::MAX } else { high }, bounded]
        }
    })
    ("a refusal has an upper end", RefusedBounded {
        fn numbers(&self, spread: Result<Spread, Refusal>) -> [u64; 4] {
            let [number, low, high, bounded] = Document01.numbers(spread);
            [number, low, high, if number == 0 { bounded } else { 1 }]
        }
    })
}

planted! { OF_RUNS:
    ("one that exceeded is left out of the sum of the smallest", ExceededNotAdded {
        fn sum_of_smallest(&self, spreads: &[Spread]) -> u128 {
            let known = spreads.iter().filter(|spread| spread.largest.is_some());
            known.map(|spread| u128::from(spread.smallest)).sum()
        }
    })
    ("the largest counts are added into the sum of the smallest", LargestAsSmallest {
        fn sum_of_smallest(&self, spreads: &[Spread]) -> u128 {
            spreads.iter().map(|spread| u128::from(spread.largest.unwrap_or(spread.smallest))).sum()
        }
    })
    ("the smallest counts are added into the sum of the largest", SmallestAsLargest {
        fn sum_of_largest(&self, spreads: &[Spread]) -> Option<u128> {
            Document01.sum_of_largest(spreads)?;
            Some(self.sum_of_smallest(spreads))
        }
    })
    ("the upper end is kept where one exceeded", UpperEndKept {
        fn sum_of_largest(&self, spreads: &[Spread]) -> Option<u128> {
            Some(spreads.iter().filter_map(|spread| spread.largest).map(u128::from).sum())
        }
    })
    ("the last encoding alone decides on the upper end", LastDecides {
        fn sum_of_largest(&self, spreads: &[Spread]) -> Option<u128> {
            let last = spreads.last().map_or(Some(0), |spread| spread.largest);
            last.and(UpperEndKept.sum_of_largest(spreads))
        }
    })
    ("a run of no encodings has no upper end", EmptyUnbounded {
        fn sum_of_largest(&self, spreads: &[Spread]) -> Option<u128> {
            if spreads.is_empty() { None } else { Document01.sum_of_largest(spreads) }
        }
    })
    ("one that exceeded hides a 4 behind it", ExceededHides4 {
        fn spreads(&self, run: &[u64]) -> Spreads {
            let (seen, hidden) = parted(run);
            let mut spreads = Document01.spreads(seen)?;
            spreads.extend(hidden.iter().filter_map(|&cc| self.decode(cc).ok()));
            Ok(spreads)
        }
    })
    ("one that exceeded ends the sum", ExceededEnds {
        fn spreads(&self, run: &[u64]) -> Spreads {
            Document01.spreads(run)?;
            Document01.spreads(parted(run).0)
        }
    })
    ("a run that ends with a 4 is added up to there", LastNotJudged {
        fn spreads(&self, run: &[u64]) -> Spreads {
            let judged = &run[..run.len().saturating_sub(1)];
            Document01.spreads(run).or_else(|_| Document01.spreads(judged))
        }
    })
    ("an encoding outside the list is left out", OutsideLeftOut {
        fn spreads(&self, run: &[u64]) -> Spreads {
            Ok(run.iter().filter_map(|&cc| self.decode(cc).ok()).collect())
        }
    })
    ("the first encoding is left out", FirstLeftOut {
        fn sum(&self, run: &[u64]) -> Result<Spread, Refusal> {
            Document01.sum(run.get(1..).unwrap_or(&[]))
        }
    })
    ("the last encoding is left out", LastLeftOut {
        fn sum(&self, run: &[u64]) -> Result<Spread, Refusal> {
            Document01.sum(&run[..run.len().saturating_sub(1)])
        }
    })
}

/// The first disagreement of two, or of the first's sums with its sums of the parts or with what it decodes.
fn found(both: [&dyn Counting; 2], seed: u64) -> Option<run::Disagreement> {
    run::sums(both, &mut Random::new(seed), RUNS, &mut Classes::default()).err()
}

/// How many encodings are left of a case. One around the run is too many in any case.
fn left(run: &LentRun) -> usize {
    run.encodings.len() + (LONGEST + 1) * (run.before.len() + run.behind.len())
}

#[test]
fn each_planted_error_of_sums_is_found_and_shrunk() {
    const TEST: &str = "planted errors of sums";
    let seed = seed::of_test(TEST, || SEED);
    let planted = OF_ENCODINGS.iter().chain(OF_RUNS);
    let found = planted.map(|&(words, wrong)| (words, found([&Library, wrong], seed)));
    check_found(TEST, found, LONGEST, "encodings", |disagreement| left(&disagreement.run));
}

/// A wrong model beside itself: the sums of its parts, or what it decodes, tell the error alone.
#[test]
fn each_planted_error_of_runs_is_told_without_another_model() {
    let seed = seed::of_test("planted errors of sums, by parts and encodings", || SEED);
    let told = |wrong| found([wrong, wrong], seed).is_some_and(|told| told.how.starts_with("one call"));
    let missed: Vec<&str> = OF_RUNS.iter().filter(|(_, wrong)| !told(*wrong)).map(|(words, _)| *words).collect();
    assert!(missed.is_empty(), "{missed:#?}");
}
