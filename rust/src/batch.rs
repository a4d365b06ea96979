//! A run of recorded operations in one call.

use crate::{c, Answer};

/// Does what calls of [`step_recorded`](crate::step_recorded) do, one after another from the first byte on, in one call. The
/// run ends with the bytes, or with the first operation that is answered 1 or 2, which is the last one answered. The answer
/// of operation i, counted from 0, goes to `answers[2 * i]` (its number) and `answers[2 * i + 1]` (its value); after every
/// other refusal, an operation's own 6 for the room too, the batch goes on.
///
/// Answers 0 and how many operations were answered; or 7 where the state is not sound or too short; else 6 where `answers`
/// has fewer than [`ANSWER_NUMBERS`](crate::ANSWER_NUMBERS) numbers for each of these operations. A refused batch leaves
/// every lent number as it was. Numbers past the answers are never written, and
/// [`batch_numbers`](crate::batch_numbers) of the bytes' length are always enough: with fewer the run may be read twice.
///
/// ```
/// use brb::Answer;
///
/// // A reset to 8 records, a read of register 5, which is refused, and one of BRBIDR0_EL1.
/// let bytes = [0, 0, 8, 0, 5, 0, 5, 5, 0, 0];
/// let (mut state, mut room) = ([0; brb::STATE_NUMBERS], [0; brb::room_numbers(8)]);
/// let mut answers = [9; brb::batch_numbers(10)];
/// assert_eq!(brb::batch(&mut state, &mut room, &bytes, &mut answers[..5]), Answer { number: 6, value: 0 });
/// assert_eq!((state, answers), ([0; brb::STATE_NUMBERS], [9; 11]));
/// assert_eq!(brb::batch(&mut state, &mut room, &bytes, &mut answers), Answer { number: 0, value: 3 });
/// assert_eq!(answers, [0, 0, 4, 0, 0, 0x5008, 9, 9, 9, 9, 9]);
/// ```
#[inline]
pub fn batch(state: &mut [u64], room: &mut [u64], bytes: &[u8], answers: &mut [u64]) -> Answer {
    let (lent, length) = (bytes.as_ptr(), bytes.len());
    let (place, numbers) = (answers.as_mut_ptr(), answers.len());
    // SAFETY: as in `step`; the bytes are only read.
    unsafe {
        c::brb_batch(state.as_mut_ptr(), state.len(), room.as_mut_ptr(), room.len(), lent, length, place, numbers)
    }
}
