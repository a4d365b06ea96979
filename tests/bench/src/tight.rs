//! A step and a batch in plain Rust, as tight as we can write them for taken branches. The step is one function, with the library's
//! checks of the state, the code, the fields and the room, on the same lent numbers and with the same round buffer; the batch reads
//! a run with the library's checks and steps along it. They say how near the library comes to what can be had. Operations other than
//! branches, which are not timed, go to the model. Neither is a judge of what is right: what they leave is compared with what the
//! library leaves.

use crate::branches::Numbers;
use model::{Document01, Rules};

const CONTROLS: u64 = 0xC0_017B;
const FILTERS: u64 = 0x307F_0080;
const PLATFORM: u64 = 0x3F7F;
const CAP: u64 = 1 << 20;

/// Bit k is set where k is a type of branch.
const TYPES: u64 = 0x12F;

/// The filter bit of each type.
const FILTER_BITS: [u8; 9] = [17, 18, 21, 20, 0, 19, 0, 0, 22];

/// CC of a count: all ones above the largest; else the count itself below 256, or its leading nine bits without the first, and an
/// exponent.
#[inline(always)]
fn encoded(count: u64) -> u64 {
    let exponent = 56_u64.saturating_sub(u64::from(count.leading_zeros()));
    let mantissa = count >> exponent.saturating_sub(1) & 0xFF;
    if count >= CAP {
        0x3FFF
    } else {
        exponent << 8 | mantissa
    }
}

/// Any other operation, apart, so that a branch does without its registers.
#[cold]
#[inline(never)]
fn other(state: &mut [u64], room: &mut [u64], numbers: Numbers) -> (u64, u64) {
    let answer = Document01.step(state, room, numbers);
    (answer.number(), answer.value())
}

#[inline(never)]
pub fn step(state: &mut [u64], room: &mut [u64], numbers: Numbers) -> (u64, u64) {
    let [code, cycles, kind, mispredicted, source, target] = numbers;
    if code != 1 {
        return other(state, room, numbers);
    }
    let Some(state) = state.first_chunk_mut::<{ brb::STATE_NUMBERS }>() else { return (7, 0) };
    let [level, size, v1p1, p, brbcr1, brbcr2, brbfcr, count, unknown, halted, _, start] = *state;
    let el2 = p & 3 != 0;
    let tge = p & 4 != 0 && el2;
    let sound = level <= 3
        && matches!(size, 0 | 8 | 16 | 32 | 64)
        && v1p1 | unknown | halted <= 1
        && p & !PLATFORM | (brbcr1 | brbcr2) & !CONTROLS | brbfcr & !FILTERS == 0
        && !(level == 2 && !el2 || level == 1 && tge)
        && count <= CAP
        && (start < size || start == 0);
    if !sound {
        return (7, 0);
    }
    if size == 0 {
        return (3, 0);
    }
    if kind > 8 || TYPES >> kind & 1 == 0 || mispredicted > 1 {
        return (4, 0);
    }
    if halted == 1 {
        return (8, 0);
    }
    if room.len() < 3 * size as usize {
        return (6, 0);
    }
    let enabled = match level {
        3 => v1p1 & p >> 6,
        2 => brbcr2 >> 1,
        1 => brbcr1 >> 1,
        _ if tge => brbcr2,
        _ => brbcr1,
    };
    let permitted = level == 3 || p >> 5 & 1 == 1 || p >> 4 & p & 1 == 1;
    let shown = enabled & 1 == 1 && permitted;
    let count = count.saturating_add(cycles).min(CAP);
    let unknown = unknown | u64::from(!shown);
    let filter = brbfcr >> FILTER_BITS[kind as usize] ^ brbfcr >> 16;
    if !shown || brbfcr & 0x80 != 0 || filter & 1 == 0 {
        state[brb::STATE_COUNT] = count;
        state[brb::STATE_UNKNOWN] = unknown;
        return (0, 0);
    }
    let both = brbcr1 & brbcr2;
    let known = both >> 3 & 1 & !unknown;
    let cycles = if known == 1 { encoded(count) << 32 } else { 1 << 46 };
    let place = if start == 0 { size } else { start } - 1;
    let inf = cycles | kind << 8 | level << 6 | (mispredicted & both >> 4) << 5 | 3;
    room[3 * place as usize..][..3].copy_from_slice(&[inf, source, target]);
    state[brb::STATE_COUNT] = 0;
    state[brb::STATE_UNKNOWN] = 0;
    state[brb::STATE_START] = place;
    (0, 0)
}

/// A number of a recording and the place after it; none where it is malformed.
#[inline(always)]
pub fn number_at(bytes: &[u8], at: usize) -> Option<(u64, usize)> {
    let first = *bytes.get(at)?;
    if first < 0x80 {
        return Some((u64::from(first), at + 1));
    }
    let (mut number, mut next) = (u64::from(first & 0x7F), at + 1);
    for shift in (7..63).step_by(7) {
        let byte = *bytes.get(next)?;
        next += 1;
        number |= u64::from(byte & 0x7F) << shift;
        if byte < 0x80 {
            return (byte != 0).then_some((number, next));
        }
    }
    (*bytes.get(next)? == 1).then_some((number | 1 << 63, next + 1))
}

/// How many fields the operation of each code has.
pub const FIELDS: [u8; 11] = [2, 4, 4, 4, 1, 1, 2, 0, 1, 2, 4];

/// The operation at a place and the place after it; or the number of the refusal that ends the run there.
#[inline(always)]
fn operation_at(bytes: &[u8], at: usize) -> Result<(Numbers, usize), u64> {
    let (code, at) = number_at(bytes, at).ok_or(1_u64)?;
    let &fields = FIELDS.get(code as usize).ok_or(2_u64)?;
    let mut numbers = [code, 0, 0, 0, 0, 0];
    let mut next = at;
    for number in &mut numbers[1..2 + usize::from(fields)] {
        (*number, next) = number_at(bytes, next).ok_or(1_u64)?;
    }
    Ok((numbers, next))
}

/// How many operations a run has, the one that ends it too.
fn operations(bytes: &[u8]) -> usize {
    let (mut at, mut count) = (0, 0);
    while at < bytes.len() {
        count += 1;
        at = operation_at(bytes, at).map_or(bytes.len(), |(_, next)| next);
    }
    count
}

/// A run of recorded operations. An unsound state, which the model judges for all of them at once, is 7.
#[inline(never)]
pub fn batch(state: &mut [u64], room: &mut [u64], bytes: &[u8], answers: &mut [u64]) -> (u64, u64) {
    if Document01.sound(state).is_none() {
        return (7, 0);
    }
    if answers.len() <= bytes.len() && answers.len() < brb::ANSWER_NUMBERS * operations(bytes) {
        return (6, 0);
    }
    let (mut at, mut count) = (0, 0);
    let mut places = answers.chunks_exact_mut(brb::ANSWER_NUMBERS);
    while at < bytes.len() {
        let Some(place) = places.next() else { break };
        let answer = match operation_at(bytes, at) {
            Ok((numbers, next)) => {
                at = next;
                step(state, room, numbers)
            }
            Err(number) => {
                at = bytes.len();
                (number, 0)
            }
        };
        (place[0], place[1]) = answer;
        count += 1;
    }
    (0, count)
}
