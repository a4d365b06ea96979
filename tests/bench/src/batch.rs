//! The time of recorded branches in batches (document 02, Two), beside as many single calls of both kinds, beside the
//! model's batch and beside a tight one in Rust.
//!
//! All of them start from the same state and room and take turns, a batch each, of which the median counts; who is first
//! changes with each batch, since the first finds the bytes less near. Every answer is looked at, and what they leave is
//! compared after each round. The library's calls go straight to the archive, as a C host's do.

use crate::branches::{self, Lent, Numbers};
use crate::{median, tight, Options};
use model::{Batches, Document01, Recordings, Rules};
use std::hint::black_box;
use std::time::Instant;

/// How many operations a batch has.
const BATCH: usize = 1000;
/// What stands in answers before a call: no branch is answered so.
const BEFORE: u64 = 9;

/// The operations of a batch, one by one and as a recording.
struct Run {
    branches: Vec<Numbers>,
    bytes: Vec<u8>,
}

impl Run {
    fn of(branches: &[Numbers]) -> Run {
        let bytes = branches.iter().flat_map(|&numbers| Document01.operation_bytes(numbers).expect("a known code"));
        Run { branches: branches.to_vec(), bytes: bytes.collect() }
    }

    /// Numbers for answers: enough for any run of so many bytes, and just enough for these operations, for which the run
    /// has to be read twice.
    fn enough(&self) -> usize {
        brb::batch_numbers(self.bytes.len())
    }

    fn exact(&self) -> usize {
        brb::ANSWER_NUMBERS * self.branches.len()
    }
}

/// The model, which counts a run's operations only where the numbers for answers might be too few, as the library does
/// (`docs/MANUAL.md`, "Batches"). The model's own rule counts them always.
struct CountsIfNeeded;

impl Rules for CountsIfNeeded {}
impl Recordings for CountsIfNeeded {}
impl Batches for CountsIfNeeded {
    fn answers_too_short(&self, bytes: &[u8], answers: usize) -> bool {
        answers < 2 * bytes.len().div_ceil(2) && Document01.answers_too_short(bytes, answers)
    }
}

/// How many operations of a run were done, each answered with 0 and 0.
type Done = fn(&mut Lent, &Run, &mut [u64]) -> usize;

#[inline(never)]
fn batch(lent: &mut Lent, run: &Run, answers: &mut [u64]) -> usize {
    let answer = brb::batch(&mut lent.state, &mut lent.room, black_box(&run.bytes), answers);
    done(answer.number, answer.value as usize, answers)
}

#[inline(never)]
fn modelled(lent: &mut Lent, run: &Run, answers: &mut [u64]) -> usize {
    let answered = CountsIfNeeded.batch(&mut lent.state, &mut lent.room, black_box(&run.bytes), answers);
    answered.map_or(0, |operations| done(0, operations, answers))
}

#[inline(never)]
fn tightly(lent: &mut Lent, run: &Run, answers: &mut [u64]) -> usize {
    let (number, operations) = tight::batch(&mut lent.state, &mut lent.room, black_box(&run.bytes), answers);
    done(number, operations as usize, answers)
}

/// How many of a batch's answers are 0 and 0.
fn done(number: u64, operations: usize, answers: &[u64]) -> usize {
    let answers = &black_box(answers)[..brb::ANSWER_NUMBERS * operations];
    let done = answers.chunks_exact(brb::ANSWER_NUMBERS).filter(|answer| answer[0] | answer[1] == 0);
    if number == 0 {
        done.count()
    } else {
        0
    }
}

#[inline(never)]
fn recorded_steps(lent: &mut Lent, run: &Run, _: &mut [u64]) -> usize {
    let (bytes, mut at, mut done) = (black_box(&run.bytes), 0, 0);
    while at < bytes.len() {
        let recorded = brb::step_recorded(&mut lent.state, &mut lent.room, bytes, at);
        done += usize::from(black_box(recorded.number | recorded.value) == 0);
        at = recorded.next as usize;
    }
    done
}

#[inline(never)]
fn steps(lent: &mut Lent, run: &Run, _: &mut [u64]) -> usize {
    let mut done = 0;
    for &[code, cycles, ref fields @ ..] in black_box(&run.branches) {
        let answer = brb::step(&mut lent.state, &mut lent.room, brb::Operation { code, cycles, fields: *fields });
        done += usize::from(black_box(answer.number | answer.value) == 0);
    }
    done
}

/// What is timed, by the function and the numbers that it has for answers. The last three are batches with just enough.
const SIDES: [(Done, fn(&Run) -> usize); 8] = [
    (batch, Run::enough),
    (recorded_steps, |_| 0),
    (steps, |_| 0),
    (modelled, Run::enough),
    (tightly, Run::enough),
    (batch, Run::exact),
    (modelled, Run::exact),
    (tightly, Run::exact),
];
type Times = [f64; SIDES.len()];

/// Nanoseconds an operation that a run takes.
fn turn((operate, numbers): (Done, fn(&Run) -> usize), lent: &mut Lent, run: &Run, answers: &mut [u64]) -> f64 {
    let answers = &mut answers[..numbers(run)];
    let used = answers.len().min(run.exact());
    answers[..used].fill(BEFORE);
    let start = Instant::now();
    let done = operate(lent, run, answers);
    let time = start.elapsed();
    assert_eq!(done, run.branches.len(), "every branch is accepted");
    time.as_nanos() as f64 / run.branches.len() as f64
}

/// One round: the median of each one's turns.
fn round(lent: &mut [Lent], runs: &[Run], operations: usize) -> Times {
    let most = runs.iter().map(|run| run.enough().max(run.exact())).max().unwrap_or(0);
    let (mut answers, mut turns) = (vec![BEFORE; most], SIDES.map(|_| Vec::new()));
    for (first, run) in runs.iter().cycle().take(operations.div_ceil(BATCH)).enumerate() {
        for side in (first..first + SIDES.len()).map(|side| side % SIDES.len()) {
            turns[side].push(turn(SIDES[side], &mut lent[side], run, &mut answers));
        }
    }
    turns.map(|turns| median(turns.into_iter()))
}

/// The times of each round but the first, which warms up.
fn measure(size: u64, runs: &[Run], options: &Options) -> Vec<Times> {
    let mut lent = vec![Lent::set_up(size, branches::library); SIDES.len()];
    let rounds = (0..options.rounds + 1).map(|_| {
        let times = round(&mut lent, runs, options.in_batches);
        assert!(lent.iter().all(|other| *other == lent[0]), "all leave the same numbers");
        assert!(lent[0].is_recorded(size), "all are recorded");
        times
    });
    rounds.skip(1).collect()
}

/// A line: a batch, single calls of both kinds and the batches of the model and of the tight program, by their places, and the
/// batch's ratios to them.
fn print_line(rounds: &[Times], answers: &str, [batch, others @ ..]: [usize; 5]) {
    let time = |side: usize| median(rounds.iter().map(|times| times[side]));
    let [recorded, step, model, tight] = others.map(time);
    let ratios = others.map(|other| median(rounds.iter().map(|times| times[batch] / times[other])));
    print!("    {answers:<18}{:6.1} ns{recorded:10.1} ns{step:6.1} ns{model:8.1} ns{tight:7.1} ns", time(batch));
    println!("{:12.2}{:8.2}{:8.2}{:8.2}", ratios[0], ratios[1], ratios[2], ratios[3]);
}

/// Two lines a kind of branches and a buffer size.
pub fn report(options: &Options) {
    println!(
        "{} recorded branches a round in batches of {BATCH}, medians of {} rounds",
        options.in_batches, options.rounds
    );
    for (kind, branches) in branches::kinds() {
        let runs: Vec<Run> = branches.chunks_exact(BATCH).map(Run::of).collect();
        for size in [8, 64] {
            let rounds = measure(size, &runs, options);
            println!("  {kind}, size {size}:");
            println!(
                "    {:<18}{:>9}{:>13}{:>9}{:>11}{:>10}   batch / recorded, step, model, tight",
                "answers", "batch", "recorded", "step", "model", "tight"
            );
            print_line(&rounds, "enough", [0, 1, 2, 3, 4]);
            print_line(&rounds, "two an operation", [5, 1, 2, 6, 7]);
        }
    }
}
