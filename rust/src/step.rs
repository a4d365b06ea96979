//! One operation on a lent state and a lent room.

use crate::{c, Answer, Operation};

/// One operation on lent numbers. Both slices may have any length: too short a state is refusal 7, too short a room
/// refusal 6, and numbers past the needed ones are never written.
#[inline]
pub fn step(state: &mut [u64], room: &mut [u64], operation: Operation) -> Answer {
    let Operation { code, cycles, fields: [a, b, c, d] } = operation;
    // SAFETY: each pointer comes with its slice's own length and is not null, even where that is 0; the borrows are
    // exclusive, so the areas do not overlap, and they last for the call, after which the library keeps nothing.
    unsafe { c::brb_step(state.as_mut_ptr(), state.len(), room.as_mut_ptr(), room.len(), code, cycles, a, b, c, d) }
}

/// A read of a register: the same as [`step`] with [`Operation::read`]. It changes the state, since its cycles count.
#[inline]
pub fn read(state: &mut [u64], room: &mut [u64], cycles: u64, register: u64) -> Answer {
    // SAFETY: as in `step`.
    unsafe { c::brb_read(state.as_mut_ptr(), state.len(), room.as_mut_ptr(), room.len(), cycles, register) }
}
