//! Recordings with a bad number at every place.

use crate::recording::{damage, Recording};
use crate::{Call, Random};
use model::LAST_CODE;

/// Each number of each operation in each form that is not its own, and each operation cut before each of its bytes; some
/// operations before it, and with and without another after it.
pub fn recordings(random: &mut Random) -> Vec<Vec<u8>> {
    let mut recordings = Vec::new();
    for code in 0..=LAST_CODE {
        let recording = Recording::of(&[Call([code, 300, 1, 1 << 14, 2, u64::MAX])]);
        let before = Recording::of_any(random, code as usize).bytes;
        for damaged in damage::cut(&recording).chain(damage::malformed(&recording, random)) {
            let ended = [&before[..], &damaged.bytes].concat();
            recordings.push([&ended[..], &[7, 0]].concat());
            recordings.push(ended);
        }
    }
    recordings
}
