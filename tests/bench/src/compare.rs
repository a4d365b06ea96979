//! The time of comparing two recordings (document 02, Eight): `brb_compare` beside a program in plain Rust, `parting.rs`, that
//! gives the same answers; and the time of the program `compare` on two files, beside that of the Rust program, started like it,
//! which reads them whole; and its peak memory.
//!
//! The two take turns, and who is first changes with each round. What they answer is compared before anything is timed: of the
//! recordings themselves, and of operations with each number at the edges of one byte and of ten, whole and cut off.

use crate::branches::{self, Numbers};
use crate::parting::{self, Nine};
use crate::process::{command, peak_memory, time_of, Kept};
use crate::read::EDGES;
use crate::{median, Options};
use model::{Document01, Recordings, LAST_CODE};
use std::hint::black_box;
use std::path::Path;
use std::process::{Command, Stdio};
use std::time::Instant;

type Compare = fn(&[u8], &[u8]) -> Nine;

/// Two recordings, and what has to be answered of them.
struct Pair {
    what: &'static str,
    first: Vec<u8>,
    second: Vec<u8>,
    /// How many operations they have together.
    operations: usize,
    answer: Nine,
}

#[inline(never)]
fn by_library(first: &[u8], second: &[u8]) -> Nine {
    let brb::Parting { number, which, at, equal, ends_first, differing, rest_of, rest_at, rest_length } =
        brb::compare(first, second);
    [number, which, at, equal, ends_first, differing, rest_of, rest_at, rest_length]
}

fn written(operations: &[Numbers]) -> Vec<u8> {
    operations.iter().flat_map(|&numbers| Document01.operation_bytes(numbers).expect("a known code")).collect()
}

/// Two of so many operations: equal; unequal in the last one; unequal in the first one, with all others equal; unequal in every
/// one, and the same with one fewer in the second; and a second of half as many.
fn pairs(branches: &[Numbers], count: usize) -> [Pair; 6] {
    let operations: Vec<Numbers> = branches::with_reads(branches).take(count).collect();
    let (mut last, mut first) = (operations.clone(), operations.clone());
    // The cycles stay within their bytes.
    last[count - 1][1] ^= 1;
    first[0][1] ^= 1;
    let every: Vec<Numbers> =
        operations.iter().map(|&[code, cycles, a, b, c, d]| [code, cycles ^ 1, a, b, c, d]).collect();
    let half = written(&operations[..count / 2]);
    let whole = written(&operations);
    let fewer = written(&every[..count - 1]);
    let (length, rest_at) = (whole.len() as u64, half.len() as u64);
    let last_at = written(&operations[..count - 1]).len() as u64;
    let as_many = |equal: usize, differing: u64| [0, 0, 0, equal as u64, 0, differing, 1, length, 0];
    let left = [0, 0, 0, count as u64 / 2, 2, 0, 1, rest_at, length - rest_at];
    let cycles = brb::DIFFERING_CYCLES;
    [
        ("equal", whole.clone(), count, as_many(count, 0)),
        ("unequal in the last", written(&last), count, as_many(count - 1, cycles)),
        ("unequal in the first", written(&first), count, as_many(0, cycles)),
        ("unequal in every one", written(&every), count, as_many(0, cycles)),
        ("and one fewer", fewer, count - 1, [0, 0, 0, 0, 2, cycles, 1, last_at, length - last_at]),
        ("a second of half", half, count / 2, left),
    ]
    .map(|(what, second, more, answer)| Pair {
        what,
        first: whole.clone(),
        second,
        operations: count + more,
        answer,
    })
}

/// Both answer the same.
fn assert_alike(first: &[u8], second: &[u8]) {
    assert_eq!(by_library(first, second), parting::compare(first, second), "{first:x?} beside {second:x?}");
}

/// An operation with each of its numbers at each edge, whole and cut off, beside itself, beside others and behind them.
fn assert_same() {
    let others: [&[u8]; 4] = [&[], &[7, 0], &[7, 0, 5, 0, 1, 7], &[11]];
    for (code, place, edge) in
        (0..=LAST_CODE as u8).flat_map(|code| (0..6).flat_map(move |place| EDGES.map(|edge| (code, place, edge))))
    {
        let before = [code, 0x7F, 0x00, 0x01, 0x7F, 0x00];
        let bytes = [&before[..place], edge, &before[place + 1..]].concat();
        for cut in (0..=bytes.len()).map(|length| &bytes[..length]) {
            assert_alike(cut, &bytes);
            assert_alike(&bytes, cut);
            for other in others {
                assert_alike(cut, other);
                assert_alike(other, &[&[7, 0], cut].concat());
            }
        }
    }
}

/// Nanoseconds an operation that a comparison takes.
fn turn(compare: Compare, pair: &Pair) -> f64 {
    let start = Instant::now();
    let answer = compare(black_box(&pair.first), black_box(&pair.second));
    let time = start.elapsed();
    assert_eq!(black_box(answer), pair.answer, "{}", pair.what);
    time.as_nanos() as f64 / pair.operations as f64
}

/// A line a pair.
fn report_pair(pair: &Pair, rounds: usize) {
    let round = |number: usize| {
        let turns: [Compare; 2] = [by_library, parting::compare];
        let mut times = [0.0; 2];
        for side in [number % 2, 1 - number % 2] {
            times[side] = turn(turns[side], pair);
        }
        times
    };
    // The first round warms up and does not count.
    let rounds: Vec<[f64; 2]> = (0..rounds + 1).map(round).skip(1).collect();
    let [library, rust] = [0, 1].map(|side| median(rounds.iter().map(|times| times[side])));
    let ratio = median(rounds.iter().map(|[library, rust]| library / rust));
    println!("    {:<22}library {library:6.1} ns, Rust {rust:6.1} ns, ratio {ratio:.2}", pair.what);
}

/// What the Rust program says of two files, which it reads whole: the nine numbers in a line, as `compare --numbers` has them.
pub fn of_files(first: &Path, second: &Path) -> std::io::Result<String> {
    Ok(line(parting::compare(&std::fs::read(first)?, &std::fs::read(second)?)))
}

fn line(numbers: Nine) -> String {
    numbers.map(|number| number.to_string()).join(" ") + "\n"
}

/// The Rust program as one that is started, for two files.
fn rust(files: &[&Kept], output: Stdio) -> std::io::Result<Command> {
    let mut command = command(&std::env::current_exe()?, &[], output);
    command.arg("--compare-files").args(files.iter().map(|kept| &kept.file));
    Ok(command)
}

/// The program's time on two files beside the Rust program's, and its memory, once what it prints is right.
fn report_program(program: &Path, pair: &Pair, rounds: usize) -> std::io::Result<()> {
    let [first, second] = [Kept::new("first", &pair.first)?, Kept::new("second", &pair.second)?];
    let files = [&first, &second];
    for mut program in [command(program, &files, Stdio::piped()), rust(&files, Stdio::piped())?] {
        let printed = program.arg("--numbers").output()?.stdout;
        assert_eq!(String::from_utf8_lossy(&printed), line(pair.answer), "{}", pair.what);
    }
    let mut times = Vec::new();
    for _ in 0..rounds {
        times.push([time_of(command(program, &files, Stdio::null()))?, time_of(rust(&files, Stdio::null())?)?]);
    }
    let memory = peak_memory(command(program, &files, Stdio::null()).spawn()?)?;
    let [time, rust] = [0, 1].map(|side| median(times.iter().map(|times| times[side])) * 1e3);
    let ratio = median(times.iter().map(|[time, rust]| time / rust));
    println!("    {:<22}program {time:6.1} ms, Rust {rust:6.1} ms, ratio {ratio:.2}; peak memory: {memory}", pair.what);
    Ok(())
}

/// Lines for each kind of recordings: a line a pair, and one a pair of files; a line that says so where the program is not built.
pub fn report(options: &Options) -> std::io::Result<()> {
    assert_same();
    println!(
        "two recordings of {} operations compared, nanoseconds an operation of both, medians of {} rounds",
        options.operations, options.rounds
    );
    let is_built = options.comparer.is_file();
    for (kind, branches) in branches::kinds() {
        println!("  {kind}:");
        let pairs = pairs(&branches, options.operations.max(2));
        pairs.iter().for_each(|pair| report_pair(pair, options.rounds));
        if is_built {
            pairs.iter().try_for_each(|pair| report_program(&options.comparer, pair, options.rounds))?;
        }
    }
    if !is_built {
        println!("compare: the program is skipped, there is no {}", options.comparer.display());
    }
    Ok(())
}
