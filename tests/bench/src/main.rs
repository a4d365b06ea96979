//! The proved library beside the Rust model, which does the same checks on the same lent numbers, rule by rule, with the same round
//! buffer: the time of a recorded branch by single calls and in batches, and that of a replay. Single calls are timed beside a tight
//! program in Rust too, reading alone beside a reader in C, and comparing two recordings beside a program in Rust.

mod batch;
mod branches;
mod compare;
mod parting;
mod process;
mod read;
mod replay;
mod tight;

use std::path::PathBuf;
use std::process::ExitCode;

const USAGE: &str = "\
Times the proved library: recorded branches by single calls, beside the Rust model and
a tight program in Rust; recorded branches in batches, and the replay program, if it is
built, on files of 1000000 operations, beside the model; reading a recording's
operations beside a reader in C; comparing two recordings beside a program in Rust,
and the compare program, if it is built.

usage: bench [--operations N] [--rounds N] [--quick] [--program FILE]
             [--compare-program FILE] [--step | --batch | --read | --compare | --replay]

  --operations N   operations a round (default 1000000)
  --rounds N       rounds, of which the medians count (default 15)
  --quick          200000 operations, 10000 in batches, 5 rounds
  --step           the single calls alone
  --batch          the batches alone
  --read           the reading alone
  --compare        the comparing alone
  --replay         the replay alone
  --program FILE   the replay program (default target/bin/replay)
  --compare-program FILE
                   the compare program (default target/bin/compare_main)
  --help           this text

bench --compare-files A B is the Rust program that compare is timed beside: it reads both
files whole and prints the nine numbers.

A line a buffer size: nanoseconds an operation of each, and the library's ratio to the
model and to the tight program. Then the batches: nanoseconds an operation of brb_batch, of as many calls of
brb_step_recorded and of brb_step, and of the model's batch, and brb_batch's ratio
to each. Then brb_recording_read's nanoseconds an operation and the C reader's. Then
those of brb_compare and of the Rust program, for two recordings that are equal, unequal
in the last operation, in the first or in every one, or of which one is half as long, and
the compare program's milliseconds on two files, those of the Rust program, started like
it, and the program's peak memory. Then the replay's milliseconds and the model's,
and the program's peak memory.";

fn median(times: impl Iterator<Item = f64>) -> f64 {
    let mut times: Vec<f64> = times.collect();
    times.sort_by(f64::total_cmp);
    times[times.len() / 2]
}

/// What is timed.
#[derive(Clone, Copy, PartialEq, Eq)]
enum Part {
    All,
    Steps,
    Batches,
    Read,
    Compare,
    Replay,
}

/// The part that an argument asks for.
fn part_of(argument: &str) -> Option<Part> {
    match argument {
        "--step" => Some(Part::Steps),
        "--batch" => Some(Part::Batches),
        "--read" => Some(Part::Read),
        "--compare" => Some(Part::Compare),
        "--replay" => Some(Part::Replay),
        _ => None,
    }
}

struct Options {
    operations: usize,
    /// As many, in batches.
    in_batches: usize,
    rounds: usize,
    part: Part,
    /// The replay program.
    program: PathBuf,
    /// The compare program.
    comparer: PathBuf,
}

impl Default for Options {
    fn default() -> Options {
        let program = concat!(env!("CARGO_MANIFEST_DIR"), "/../../target/bin/replay").into();
        let comparer = concat!(env!("CARGO_MANIFEST_DIR"), "/../../target/bin/compare_main").into();
        Options { operations: 1_000_000, in_batches: 1_000_000, rounds: 15, part: Part::All, program, comparer }
    }
}

/// The options, or none where help is asked for.
fn options(mut arguments: impl Iterator<Item = String>) -> Result<Option<Options>, String> {
    let mut options = Options::default();
    while let Some(argument) = arguments.next() {
        if let Some(part) = part_of(&argument) {
            options.part = part;
            continue;
        }
        let place = match argument.as_str() {
            "--help" | "-h" => return Ok(None),
            "--quick" => {
                options = Options { operations: 200_000, in_batches: 10_000, rounds: 5, ..options };
                continue;
            }
            "--program" | "--compare-program" => {
                let file = arguments.next().ok_or(format!("{argument} needs a file"))?.into();
                *if argument == "--program" { &mut options.program } else { &mut options.comparer } = file;
                continue;
            }
            "--operations" => &mut options.operations,
            "--rounds" => &mut options.rounds,
            other => return Err(format!("unknown argument {other}")),
        };
        let number = arguments.next().ok_or(format!("{argument} needs a number"))?;
        let number: usize = number.parse().map_err(|_| format!("{argument} {number}: not a number"))?;
        *place = number.max(1);
        if argument == "--operations" {
            options.in_batches = options.operations;
        }
    }
    Ok(Some(options))
}

fn report(options: &Options) -> std::io::Result<()> {
    let asked = |part: Part| options.part == Part::All || options.part == part;
    if asked(Part::Steps) {
        branches::report(options);
    }
    if asked(Part::Batches) {
        batch::report(options);
    }
    if asked(Part::Read) {
        read::report(options);
    }
    if asked(Part::Compare) {
        compare::report(options)?;
    }
    if asked(Part::Replay) {
        replay::report(options)?;
    }
    Ok(())
}

/// The Rust program that `compare` is timed beside: `bench --compare-files A B`, with or without `--numbers` behind them.
fn compared_files(arguments: &[String]) -> Option<std::io::Result<String>> {
    match arguments {
        [option, first, second, ..] if option == "--compare-files" => {
            Some(compare::of_files(first.as_ref(), second.as_ref()))
        }
        _ => None,
    }
}

fn main() -> ExitCode {
    let arguments: Vec<String> = std::env::args().skip(1).collect();
    if let Some(compared) = compared_files(&arguments) {
        let Ok(line) = compared else { return ExitCode::FAILURE };
        print!("{line}");
        return ExitCode::SUCCESS;
    }
    match options(arguments.into_iter()) {
        Err(problem) => {
            eprintln!("bench: {problem}\n\n{USAGE}");
            ExitCode::from(2)
        }
        Ok(None) => {
            println!("{USAGE}");
            ExitCode::SUCCESS
        }
        Ok(Some(options)) => match report(&options) {
            Ok(()) => ExitCode::SUCCESS,
            Err(error) => {
                eprintln!("bench: a program: {error}");
                ExitCode::FAILURE
            }
        },
    }
}
