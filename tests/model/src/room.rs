//! The lent room: a place for each record, three numbers each. Which record stands at which place is a matter of
//! [`Rules`](crate::Rules).

use crate::{Part, Record};
use std::ops::Range;

/// How many numbers the records of a buffer take.
#[inline]
pub fn needed(size: usize) -> usize {
    3 * size
}

/// Where the three numbers of a place stand.
#[inline]
pub fn numbers(place: usize) -> Range<usize> {
    3 * place..3 * place + 3
}

/// A record at its place.
#[inline]
pub fn write(room: &mut [u64], place: usize, record: Record) {
    room[numbers(place)].copy_from_slice(&record);
}

/// One number of what stands at a place. A wrong model may ask for a place that the room has not, and sees 0 there.
#[inline]
pub fn number(room: &[u64], place: usize, part: Part) -> u64 {
    room.get(3 * place + part as usize).copied().unwrap_or(0)
}

/// Every place zero.
#[inline]
pub fn clear(room: &mut [u64], size: usize) {
    room[..needed(size)].fill(0);
}
