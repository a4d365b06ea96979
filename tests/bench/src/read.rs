//! The time of reading a recording's operations (document 02, Three): `brb_recording_read` beside a reader in C, `reader.c`,
//! that gives the same answers.
//!
//! The two take turns, a whole recording each, of which the median counts. What they read is compared before anything is
//! timed, on every operation and on numbers at the edges of one byte and of ten.

use crate::branches::{self, Numbers};
use crate::{median, Options};
use model::{Document01, Recordings, LAST_CODE};
use std::hint::black_box;
use std::time::Instant;

/// How many operations a recording has, all of which are read in a turn.
const OPERATIONS: usize = 4096;

extern "C" {
    fn bench_recording_read(
        bytes: *const u8,
        length: usize,
        at: usize,
        place: *mut u64,
        place_numbers: usize,
    ) -> brb::Answer;
}

#[inline(always)]
fn by_library(bytes: &[u8], at: usize, place: &mut [u64]) -> brb::Answer {
    brb::recording_read(bytes, at, place)
}

#[inline(always)]
fn by_c(bytes: &[u8], at: usize, place: &mut [u64]) -> brb::Answer {
    // SAFETY: the bytes are only read, and at most the numbers of the place are written.
    unsafe { bench_recording_read(bytes.as_ptr(), bytes.len(), at, place.as_mut_ptr(), place.len()) }
}

/// Nanoseconds an operation that a whole recording takes, each of whose numbers is looked at.
fn turn(read: impl Fn(&[u8], usize, &mut [u64]) -> brb::Answer, bytes: &[u8]) -> f64 {
    let bytes = black_box(bytes);
    let (mut place, mut at, mut done, mut sum) = ([0u64; 6], 0, 0, 0u64);
    let start = Instant::now();
    while at < bytes.len() {
        let answer = read(bytes, at, &mut place);
        assert_eq!(answer.number, 0, "every operation is read");
        sum = place.iter().fold(sum, |sum, number| sum.wrapping_add(*number));
        at = answer.value as usize;
        done += 1;
    }
    let time = start.elapsed();
    black_box(sum);
    assert_eq!(done, OPERATIONS);
    time.as_nanos() as f64 / OPERATIONS as f64
}

/// Both answer alike at a place, and leave the same numbers.
fn assert_alike(bytes: &[u8], at: usize, place_numbers: usize) -> brb::Answer {
    let [mut library, mut c] = [[9; 6]; 2];
    let answers = [by_library(bytes, at, &mut library[..place_numbers]), by_c(bytes, at, &mut c[..place_numbers])];
    assert_eq!((answers[0], library), (answers[1], c), "{bytes:x?} at {at}");
    answers[0]
}

/// Numbers of one byte and of two, of ten, and what is none, cut off or too long.
pub const EDGES: [&[u8]; 12] = [
    &[0x00],
    &[0x0A],
    &[0x0B],
    &[0x7F],
    &[0x80],
    &[0x80, 0x00],
    &[0x80, 0x01],
    &[0xFF, 0x00],
    &[0xFF, 0x7F],
    &[0xFF, 0xFF, 0xFF, 0xFF, 0xFF, 0xFF, 0xFF, 0xFF, 0xFF, 0x01],
    &[0xFF, 0xFF, 0xFF, 0xFF, 0xFF, 0xFF, 0xFF, 0xFF, 0xFF, 0x02],
    &[0xFF, 0xFF, 0xFF, 0xFF, 0xFF, 0xFF, 0xFF, 0xFF, 0xFF, 0x81, 0x01],
];

/// They do the same work: on the recording, past its end, and on an operation with each of its numbers at each edge, whole and
/// cut off.
fn assert_same(bytes: &[u8]) {
    let mut at = 0;
    while at < bytes.len() {
        assert_alike(bytes, at, 5);
        at = assert_alike(bytes, at, 6).value as usize;
    }
    assert_alike(bytes, usize::MAX, 6);
    for (code, place, edge) in
        (0..=LAST_CODE as u8).flat_map(|code| (0..6).flat_map(move |place| EDGES.map(|edge| (code, place, edge))))
    {
        let before = [code, 0x7F, 0x00, 0x01, 0x7F, 0x00];
        let bytes = [&before[..place], edge, &before[place + 1..]].concat();
        for length in 0..=bytes.len() {
            assert_alike(&bytes[..length], 0, 6);
        }
    }
}

/// A line a kind of recording.
pub fn report(options: &Options) {
    let turns = options.operations.div_ceil(OPERATIONS);
    println!("{} operations read a round, medians of {} rounds", turns * OPERATIONS, options.rounds);
    for (kind, branches) in branches::kinds() {
        let recording = |numbers: Numbers| Document01.operation_bytes(numbers).expect("a known code");
        let bytes: Vec<u8> = branches::with_reads(&branches).take(OPERATIONS).flat_map(recording).collect();
        assert_same(&bytes);
        let round = |_| {
            let times: Vec<_> = (0..turns).map(|_| (turn(by_library, &bytes), turn(by_c, &bytes))).collect();
            (median(times.iter().map(|time| time.0)), median(times.iter().map(|time| time.1)))
        };
        // The first round warms up and does not count.
        let rounds: Vec<(f64, f64)> = (0..options.rounds + 1).map(round).skip(1).collect();
        let (library, c) = (median(rounds.iter().map(|time| time.0)), median(rounds.iter().map(|time| time.1)));
        let ratio = median(rounds.iter().map(|(library, c)| library / c));
        println!("  {kind}: library {library:6.1} ns, C {c:6.1} ns, ratio {ratio:.2}");
    }
}
