//! The classes of the round buffer (document 02, Seven): from where a record went to its place, at which place a record was
//! read, what became of a start that was not 0, and which starts 7 refuses by themselves.

use crate::engine::{is_refused, Lent};
use crate::Call;
use model::{Document01, Operation, Register, Rules, State};
use std::cmp::Ordering;

/// A recorded event, by the size and by the start before it: from start 0 the new record goes to the last place.
pub const PUSHED: [&str; 12] = [
    "size 8, start 0",
    "size 8, start 1",
    "size 8, start above 1",
    "size 16, start 0",
    "size 16, start 1",
    "size 16, start above 1",
    "size 32, start 0",
    "size 32, start 1",
    "size 32, start above 1",
    "size 64, start 0",
    "size 64, start 1",
    "size 64, start above 1",
];

/// A performed read of a record, by where it stands: it has gone round where start and number add up to the size or more.
pub const READ: [&str; 9] = [
    "bank 0, below the last place",
    "bank 0, at the last place",
    "bank 0, gone round, at place 0",
    "bank 0, gone round, above it",
    "bank 1, below the last place",
    "bank 1, at the last place",
    "bank 1, gone round, at place 0",
    "bank 1, gone round, above it",
    "not below the size, start not 0",
];
const NOT_BELOW_THE_SIZE: usize = 8;

/// What puts the start to 0. A start may lie at or past the size that a reset brings.
pub const CLEARED: [&str; 7] = [
    "BRB IALL performed, start 0",
    "BRB IALL performed, start not 0",
    "reset, start 0",
    "reset to the same size, start not 0",
    "to a larger size, start not 0",
    "to a smaller size, start below it",
    "to a smaller size, start not below it",
];

/// What leaves a start that is not 0 as it is.
pub const KEPT: [&str; 13] = [
    "BRB IALL undefined",
    "BRB IALL trapped to EL2",
    "BRB IALL trapped to EL3",
    "an event that is no record",
    "a platform word",
    "a read",
    "a write",
    "a freeze",
    "refused 2",
    "refused 4",
    "refused 5",
    "refused 6",
    "refused 8",
];

/// What 7 refuses by the start alone: with start 0 the state would be sound.
pub const UNSOUND: [&str; 21] = [
    "size 8, start 8",
    "size 8, start 9",
    "size 8, start 10 to 63",
    "size 8, start 64 or above",
    "size 8, start near 2^64",
    "size 16, start 16",
    "size 16, start 17",
    "size 16, start 18 to 63",
    "size 16, start 64 or above",
    "size 16, start near 2^64",
    "size 32, start 32",
    "size 32, start 33",
    "size 32, start 34 to 63",
    "size 32, start 64 or above",
    "size 32, start near 2^64",
    "size 64, start 64",
    "size 64, start 65",
    "size 64, start 66 or above",
    "size 64, start near 2^64",
    "size 0, start 1 to 63",
    "size 0, start 64 or above",
];

/// The place of a size among the four.
fn nth(size: u64) -> usize {
    size.trailing_zeros() as usize - 3
}

/// The class of a recorded event among [`PUSHED`], by the state before it.
pub fn of_record(state: &State) -> usize {
    3 * nth(state.size as u64) + state.start.min(2)
}

/// The class of an answered operation among [`READ`].
pub fn of_read(state: &State, call: Call, number: u64) -> Option<usize> {
    let (Some(Operation::Read(Register::Record { m, .. })), 0) = (call.operation(), number) else { return None };
    let Some(record) = Document01.shown_record(state, m) else {
        return (state.start != 0).then_some(NOT_BELOW_THE_SIZE);
    };
    let where_it_stands = match (state.start + record + 1).cmp(&state.size) {
        Ordering::Less => 0,
        Ordering::Equal => 1,
        Ordering::Greater if state.start + record == state.size => 2,
        Ordering::Greater => 3,
    };
    Some(4 * (record / 32) + where_it_stands)
}

/// The class of an answered operation among [`CLEARED`].
pub fn of_clearing(state: &State, call: Call, number: u64) -> Option<usize> {
    match (call.operation()?, number) {
        (Operation::InvalidateAll, 0) => Some(usize::from(state.start != 0)),
        (Operation::Reset { .. }, 0) if state.start == 0 => Some(2),
        (Operation::Reset { size, .. }, 0) => Some(match size.cmp(&state.size) {
            Ordering::Equal => 3,
            Ordering::Greater => 4,
            Ordering::Less => 5 + usize::from(state.start >= size),
        }),
        _ => None,
    }
}

/// The class of an answered operation that makes no record among [`KEPT`].
pub fn of_keeping(state: &State, call: Call, number: u64) -> Option<usize> {
    if state.start == 0 {
        return None;
    }
    match (call.code(), number) {
        (7, 100) => Some(0),
        (7, 102) => Some(1),
        (7, 103) => Some(2),
        (1..=3 | 8 | 9, 0) => Some(3),
        (4, 0) => Some(4),
        (5, 0) => Some(5),
        (6, 0) => Some(6),
        (10, 0) => Some(7),
        (_, 2) => Some(8),
        (_, 4..=6) => Some(5 + number as usize),
        (_, 8) => Some(12),
        _ => None,
    }
}

/// The class of a state that 7 refuses among [`UNSOUND`].
pub fn of_unsound(numbers: &[u64]) -> Option<usize> {
    let (size, start) = (*numbers.get(brb::STATE_SIZE)?, *numbers.get(brb::STATE_START)?);
    let mut at_0 = numbers.to_vec();
    at_0[brb::STATE_START] = 0;
    if Document01.sound(numbers).is_some() || Document01.sound(&at_0).is_none() {
        return None;
    }
    let near = start >= u64::MAX - 255;
    Some(match (size, start - size) {
        (0, above) => 19 + usize::from(above >= 64),
        (64, _) if near => 18,
        (64, above) => 15 + above.min(2) as usize,
        (_, _) if near => 5 * nth(size) + 4,
        (_, _) if start >= 64 => 5 * nth(size) + 3,
        (_, above) => 5 * nth(size) + above.min(2) as usize,
    })
}

/// What an operation may write of the room, by the lent numbers before and after it alone: a reset and a performed BRB IALL
/// make the places of the size zero and the start 0; an event may move the start to the place below it, going round, and
/// then writes that place; nothing else is written, and nothing else moves the start. Or what was wrong, in words.
pub fn check_written(before: &Lent, after: &Lent, call: Call, number: u64) -> Result<(), String> {
    let cleared = number == 0 && matches!(call.code(), 0 | 7);
    let [start, start_after] = [before, after].map(|lent| lent.state.get(brb::STATE_START).copied().unwrap_or(0));
    let mut expected = before.room.clone();
    if cleared {
        expected[..3 * after.state[brb::STATE_SIZE] as usize].fill(0);
        same(start_after, 0, "the start is put to 0")?;
    } else if call.is_event() && !is_refused(number) && start_after != start {
        let below = if start == 0 { before.state[brb::STATE_SIZE] - 1 } else { start - 1 };
        same(start_after, below, "the start moves to the place below it")?;
        let written = 3 * below as usize..3 * below as usize + 3;
        expected[written.clone()].copy_from_slice(&after.room[written]);
    } else {
        same(start_after, start, "the start stays")?;
    }
    match (0..expected.len()).find(|&place| expected[place] != after.room[place]) {
        None => Ok(()),
        Some(place) => same(after.room[place], expected[place], &format!("room number {place} by {call}")),
    }
}

fn same(is: u64, wanted: u64, what: &str) -> Result<(), String> {
    if is == wanted {
        Ok(())
    } else {
        Err(format!("{what}: {wanted:#x} is right, and {is:#x} is there"))
    }
}
