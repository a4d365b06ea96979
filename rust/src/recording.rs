//! Recordings: operations read from, written to and stepped along lent bytes.

use crate::{c, Answer, Operation, Recorded, DONE, OPERATION_NUMBERS};

/// The operation at a position of a recording, as six numbers into a lent place, with 0 for fields that it has not.
/// Answers 0 and the position after it; or 6 where the place has fewer than [`OPERATION_NUMBERS`] (checked first), 1 where
/// a number is malformed or the input ends inside the operation, 2 where the code is above 10, and then the place is left
/// as it was. [`operation_at`] gives it by name.
#[inline]
pub fn recording_read(bytes: &[u8], at: usize, place: &mut [u64]) -> Answer {
    // SAFETY: as in `step`; the bytes are only read.
    unsafe { c::brb_recording_read(bytes.as_ptr(), bytes.len(), at, place.as_mut_ptr(), place.len()) }
}

/// The operation at a position of a recording and the position after it, or the refusal: 1 or 2.
///
/// ```
/// use brb::Operation;
///
/// let bytes = [5, 0xAC, 0x02, 32, 7, 0x80, 0x00];
/// assert_eq!(brb::operation_at(&bytes, 0), Ok((Operation::read(300, 32), 4)));
/// assert_eq!(brb::operation_at(&bytes, 4), Err(1)); // 80 00 is not the shortest form of 0
/// ```
pub fn operation_at(bytes: &[u8], at: usize) -> Result<(Operation, usize), u64> {
    let mut place = [0; OPERATION_NUMBERS];
    match recording_read(bytes, at, &mut place) {
        Answer { number: DONE, value } => {
            let [code, cycles, fields @ ..] = place;
            Ok((Operation { code, cycles, fields }, value as usize))
        }
        Answer { number, .. } => Err(number),
    }
}

/// Writes an operation at a position of lent bytes. Answers 0 and the number of bytes written; or 2 where the code is
/// above 10, then 6 where the operation has no room there, and then no byte is written. Nothing else is checked.
///
/// ```
/// use brb::{Answer, Operation};
///
/// let mut bytes = [0; brb::OPERATION_BYTES];
/// let answer = brb::recording_write(&mut bytes, 0, Operation::read(300, 32));
/// assert_eq!(answer, Answer { number: 0, value: 4 });
/// assert_eq!(bytes[..4], [5, 0xAC, 0x02, 32]);
/// ```
#[inline]
pub fn recording_write(bytes: &mut [u8], at: usize, operation: Operation) -> Answer {
    let Operation { code, cycles, fields: [a, b, c, d] } = operation;
    // SAFETY: the pointer comes with its slice's own length, and the borrow is exclusive and lasts for the call.
    unsafe { c::brb_recording_write(bytes.as_mut_ptr(), bytes.len(), at, code, cycles, a, b, c, d) }
}

/// The operation at a position of a recording, read and stepped on lent numbers: 7 first, with nothing read, then 1 or 2,
/// then as [`step`](crate::step()). At the end of the input the answer is 1: who replays a recording stops before it.
#[inline]
pub fn step_recorded(state: &mut [u64], room: &mut [u64], bytes: &[u8], at: usize) -> Recorded {
    let (lent, length) = (bytes.as_ptr(), bytes.len());
    // SAFETY: as in `step`; the bytes are only read.
    unsafe { c::brb_step_recorded(state.as_mut_ptr(), state.len(), room.as_mut_ptr(), room.len(), lent, length, at) }
}
