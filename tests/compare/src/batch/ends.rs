//! Bytes that end a batch: behind a run, or alone.

use crate::recording::reading::{length, Fault};
use crate::recording::{damage, make, Recording};
use crate::Random;
use model::{Document01, Recordings, LAST_CODE};

/// What the first number that cannot be taken is: malformed in one of five ways, or else an unknown code.
const REASONS: [Option<Fault>; Ends::KINDS] = [
    Some(Fault::Missing),
    Some(Fault::CutOff),
    Some(Fault::NotShortest),
    Some(Fault::TooLarge),
    Some(Fault::TooLong),
    None,
];
/// How many there are for each reason.
const OF_EACH: usize = 256;

/// Bytes that are no operation, made once for many runs.
pub struct Ends(Vec<Vec<Vec<u8>>>);

impl Ends {
    /// How many reasons there are for bytes to be no operation.
    pub const KINDS: usize = 6;
    /// The last of them.
    pub const UNKNOWN_CODE: usize = Ends::KINDS - 1;

    pub fn new(random: &mut Random) -> Ends {
        let mut of = |reason: Option<Fault>| (0..OF_EACH).map(|_| unreadable(random, reason)).collect();
        Ends(REASONS.map(&mut of).to_vec())
    }

    /// One of those for the reason of this number.
    pub fn one_of(&self, random: &mut Random, kind: usize) -> &[u8] {
        &self.0[kind][random.below(OF_EACH as u64) as usize]
    }
}

/// Bytes that are no operation, for this reason.
fn unreadable(random: &mut Random, end: Option<Fault>) -> Vec<u8> {
    let Some(fault) = end else {
        let code = Document01.number_bytes(LAST_CODE + 1 + random.of_length(63));
        return followed(random, code);
    };
    let operation = Recording::of(&[make::operation(random)]);
    let numbers = operation.numbers();
    // A code that is missing is the end of the bytes, and no operation at all.
    let first = u64::from(fault == Fault::Missing);
    let faulty = &numbers[(first + random.below(numbers.len() as u64 - first)) as usize];
    let before = operation.bytes[..faulty.start].to_vec();
    match fault {
        Fault::Missing => before,
        Fault::CutOff => [before, vec![0x80 | random.number() as u8; 1 + random.below(9) as usize]].concat(),
        _ => {
            let forms = damage::forms(&operation.bytes[faulty.clone()], random);
            let forms: Vec<Vec<u8>> = forms.into_iter().filter(|form| length(form) == Err(fault)).collect();
            let form = &forms[random.below(forms.len() as u64) as usize];
            followed(random, [&before, &form[..], &operation.bytes[faulty.end..]].concat())
        }
    }
}

/// What stands behind the end of a batch is not looked at, sound or not.
fn followed(random: &mut Random, mut bytes: Vec<u8>) -> Vec<u8> {
    match random.below(4) {
        0 => bytes.extend(Recording::of_any(random, 1).bytes),
        1 => bytes.extend(damage::noise(random)),
        _ => {}
    }
    bytes
}

/// So many operations of two bytes each, the fewest that one has; and one more of a single byte, which is cut off or unknown.
pub fn densest(random: &mut Random, operations: u64, one_more: bool) -> Vec<u8> {
    let mut bytes: Vec<u8> = (0..operations).flat_map(|_| [7, random.below(128) as u8]).collect();
    if one_more {
        bytes.push(random.below(128) as u8);
    }
    bytes
}
