//! Recordings whose operations lie across the end of a piece.

use crate::recording::Recording;
use crate::Call;

/// A branch with the largest numbers, and how many bytes it has.
pub const LARGEST: Call = Call([1, u64::MAX, u64::MAX, u64::MAX, u64::MAX, u64::MAX]);
pub const LONGEST_BRANCH: usize = 51;

/// A recording of just so many bytes.
pub fn filled_up_to(place: usize) -> Recording {
    let mut recording = Recording::default();
    while recording.bytes.len() + LONGEST_BRANCH + 3 <= place {
        recording.push(LARGEST);
    }
    while recording.bytes.len() < place {
        let longer = (place - recording.bytes.len()) % 2 == 1;
        recording.push(Call([7, if longer { 128 } else { 0 }, 0, 0, 0, 0]));
    }
    assert_eq!(recording.bytes.len(), place);
    recording
}
