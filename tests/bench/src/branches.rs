//! The time of a recorded branch by single calls.
//!
//! The library, the model and the tight program start from the same state and room and take turns every few thousand
//! operations, of which the median counts, so that what else the computer does falls on all alike or on none; no call is
//! inlined into the loop; every operation and every answer goes through a `black_box`; and what they leave is compared
//! after each round.

use crate::{median, tight, Options};
use model::{Document01, Rules};
use std::hint::black_box;
use std::time::Instant;

/// How many branches one of them takes before it is the next one's turn.
const TURN: usize = 4096;

pub type Numbers = [u64; 6];
type Step = fn(&mut [u64], &mut [u64], Numbers) -> (u64, u64);

/// One call of the library, as a host makes it: what is called cannot be inlined.
#[inline(always)]
pub fn library(state: &mut [u64], room: &mut [u64], [code, cycles, fields @ ..]: Numbers) -> (u64, u64) {
    let answer = brb::step(state, room, brb::Operation { code, cycles, fields });
    (answer.number, answer.value)
}

#[inline(never)]
fn modelled(state: &mut [u64], room: &mut [u64], numbers: Numbers) -> (u64, u64) {
    let answer = Document01.step(state, room, numbers);
    (answer.number(), answer.value())
}

/// What makes every branch after it a record with a known count, but for the first.
pub fn set_up(size: u64) -> [Numbers; 6] {
    [
        [0, 0, size, 0, 0, 0],
        [4, 0, 49, 0, 0, 0],
        [6, 0, 1, 0x1A, 0, 0],
        [6, 0, 2, 0x18, 0, 0],
        [6, 0, 3, 0x10000, 0, 0],
        [3, 0, 1, 0, 0x80, 0x1000],
    ]
}

/// A state and a room in which every branch becomes a record with a known count.
#[derive(Clone, PartialEq, Eq)]
pub struct Lent {
    pub state: [u64; brb::STATE_NUMBERS],
    pub room: Vec<u64>,
}

impl Lent {
    pub fn set_up(size: u64, step: Step) -> Lent {
        let mut lent = Lent { state: [0; brb::STATE_NUMBERS], room: vec![0; 192] };
        for numbers in set_up(size) {
            assert_eq!(step(&mut lent.state, &mut lent.room, numbers), (0, 0));
        }
        lent
    }

    /// Whether every record of the buffer is a full one.
    pub fn is_recorded(&self, size: u64) -> bool {
        self.room[..3 * size as usize].chunks(3).all(|record| record[0] & 3 == 3)
    }
}

/// Random numbers of 44 bits, the same in every run.
fn random_numbers() -> impl FnMut() -> u64 {
    let mut seed = 1u64;
    move || {
        seed = seed.wrapping_mul(0x5851_F42D_4C95_7F2D).wrapping_add(0x1405_7B7E_F767_814F);
        seed >> 20
    }
}

/// The types of branches.
const TYPES: [u64; 6] = [0, 1, 2, 3, 5, 8];

/// Branches of all six types, with counts of every length, well and badly predicted.
fn branches() -> Vec<Numbers> {
    let mut random = random_numbers();
    let branch = |_| {
        let kind = TYPES[random() as usize % 6];
        let cycles = random() % (1 << (random() % 21));
        [1, cycles, kind, random() & 1, random(), random()]
    };
    (0..TURN).map(branch).collect()
}

/// The same with no number above 127, so that each has one byte in a recording.
fn one_byte_branches() -> Vec<Numbers> {
    let mut random = random_numbers();
    let branch = |_| {
        let kind = TYPES[random() as usize % 6];
        [1, random() % 128, kind, random() & 1, random() % 128, random() % 128]
    };
    (0..TURN).map(branch).collect()
}

/// Both, by the words that say what their numbers are.
pub fn kinds() -> [(&'static str, Vec<Numbers>); 2] {
    [("counts of every length, addresses of 44 bits", branches()), ("no number above 127", one_byte_branches())]
}

/// One of so many operations of a recording is a read.
const READ_OF: usize = 16;

/// The operations of a recording, without end: branches, over and over, and some reads of their records in a buffer of 64.
pub fn with_reads(branches: &[Numbers]) -> impl Iterator<Item = Numbers> + '_ {
    (0..).map(|place: usize| match place % READ_OF {
        0 => [5, 1, 32 + (place / READ_OF % 96) as u64, 0, 0, 0],
        _ => branches[place % branches.len()],
    })
}

/// Nanoseconds an operation that these branches take.
#[inline(never)]
fn turn(step: impl Fn(&mut [u64], &mut [u64], Numbers) -> (u64, u64), lent: &mut Lent, branches: &[Numbers]) -> f64 {
    let start = Instant::now();
    let mut done = 0;
    for &branch in branches {
        let (number, value) = step(&mut lent.state, &mut lent.room, black_box(branch));
        done += usize::from(black_box(number | value) == 0);
    }
    let time = start.elapsed();
    assert_eq!(done, branches.len(), "every branch is accepted");
    time.as_nanos() as f64 / branches.len() as f64
}

/// One round of the library, of the model and of a step as tight as plain Rust has it: the median of their turns. Each turn has a
/// loop of its own around one call.
fn round(lent: &mut [Lent; 3], branches: &[Numbers], operations: usize) -> [f64; 3] {
    let mut turns = [Vec::new(), Vec::new(), Vec::new()];
    let mut left = operations;
    while left > 0 {
        let branches = &branches[..left.min(TURN)];
        left -= branches.len();
        turns[0].push(turn(library, &mut lent[0], branches));
        turns[1].push(turn(modelled, &mut lent[1], branches));
        turns[2].push(turn(tight::step, &mut lent[2], branches));
    }
    turns.map(|turns| median(turns.into_iter()))
}

/// The median nanoseconds an operation of each, and the medians of the rounds' ratios, of the library to the other two.
fn measure(size: u64, branches: &[Numbers], options: &Options) -> ([f64; 3], [f64; 2]) {
    let mut lent = [library, modelled, library].map(|step| Lent::set_up(size, step));
    let mut rounds = Vec::new();
    for _ in 0..options.rounds + 1 {
        rounds.push(round(&mut lent, branches, options.operations));
        assert!(lent[0] == lent[1] && lent[0] == lent[2], "all three leave the same numbers");
        assert!(lent[0].is_recorded(size), "all are recorded");
    }
    // The first round warms up and does not count.
    let rounds = &rounds[1..];
    let times = [0, 1, 2].map(|side| median(rounds.iter().map(|times| times[side])));
    (times, [1, 2].map(|side| median(rounds.iter().map(|times| times[0] / times[side]))))
}

/// A line a buffer size.
pub fn report(options: &Options) {
    let branches = branches();
    println!("{} recorded branches a round, medians of {} rounds", options.operations, options.rounds);
    for size in [8, 64] {
        let ([library, model, tight], [by_model, by_tight]) = measure(size, &branches, options);
        println!("size {size:2}: library {library:6.1} ns, model {model:6.1} ns, tight {tight:6.1} ns, ratios {by_model:.2} and {by_tight:.2}");
    }
}
