//! A long comparison of the proved library with the Rust model, by hand.

use compare::{run, seed, Engine, Library, Modelled, Random, Shares};
use model::Document01;
use std::process::ExitCode;
use std::time::Instant;

const USAGE: &str = "\
Compares the proved library with the Rust model on random operations.

usage: compare [--operations N] [--seed N]

  --operations N   at least so many operations (default 10000000), three of four in
                   sequences from a fresh state, the others single calls on any state
  --seed N         repeats the run of this seed (decimal, or hex after 0x)
  --help           this text

A line a round goes to standard error. The shares of outcomes and, last, how many
operations agreed go to standard output. A disagreement is shrunk and printed, and
the status is then 1; it is 2 where the arguments are not understood.";

/// How many operations a round has.
const ROUND: u64 = 2_000_000;

struct Options {
    operations: u64,
    seed: u64,
}

/// The options, or none where help is asked for.
fn options(mut arguments: impl Iterator<Item = String>) -> Result<Option<Options>, String> {
    let mut options = Options { operations: 10_000_000, seed: seed::from_clock() };
    while let Some(argument) = arguments.next() {
        let place = match argument.as_str() {
            "--help" | "-h" => return Ok(None),
            "--operations" => &mut options.operations,
            "--seed" => &mut options.seed,
            other => return Err(format!("unknown argument {other}")),
        };
        let number = arguments.next().ok_or(format!("{argument} needs a number"))?;
        *place = seed::parse(&number).ok_or(format!("{argument} {number}: not a 64-bit number"))?;
    }
    Ok(Some(options))
}

fn compare(options: &Options) -> Result<u64, run::Disagreement> {
    let engines: [&dyn Engine; 2] = [&Library, &Modelled(Document01)];
    let (mut random, mut shares) = (Random::new(options.seed), Shares::default());
    let start = Instant::now();
    let mut agreed = 0;
    while agreed < options.operations {
        let round = ROUND.min(options.operations - agreed);
        agreed += run::sequences(engines, &mut random, round - round / 4, &mut shares)?;
        agreed += run::singles(engines, &mut random, round / 4, &mut shares)?;
        let seconds = start.elapsed().as_secs_f64();
        eprintln!("{agreed} of {} operations agreed, {seconds:.0} s", options.operations);
    }
    print!("{shares}");
    Ok(agreed)
}

fn main() -> ExitCode {
    match options(std::env::args().skip(1)) {
        Err(problem) => {
            eprintln!("compare: {problem}\n\n{USAGE}");
            ExitCode::from(2)
        }
        Ok(None) => {
            println!("{USAGE}");
            ExitCode::SUCCESS
        }
        Ok(Some(options)) => {
            println!("seed {}", options.seed);
            match compare(&options) {
                Ok(agreed) => {
                    println!("{agreed} operations agreed, none disagreed (seed {})", options.seed);
                    ExitCode::SUCCESS
                }
                Err(disagreement) => {
                    println!("{disagreement}\nseed {}", options.seed);
                    ExitCode::FAILURE
                }
            }
        }
    }
}
