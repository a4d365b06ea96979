//! Where two recordings part.

use crate::{c, FIRST, SECOND};

/// What the library answers where it compares two recordings: `struct brb_parting` of `include/brb.h`. `which`, `ends_first`
/// and `rest_of` are [`NEITHER`](crate::NEITHER), [`FIRST`](crate::FIRST) or [`SECOND`](crate::SECOND).
#[repr(C)]
#[derive(Clone, Copy, Debug, PartialEq, Eq)]
pub struct Parting {
    /// 0; or 1 or 2 where a recording cannot be read, with 0 in all but `which` and `at`.
    pub number: u64,
    /// Whose bad number it is.
    pub which: u64,
    /// The byte where it starts; that recording's length where a number is missing.
    pub at: u64,
    /// How many operations are equal at the front.
    pub equal: u64,
    /// Which recording has fewer operations, also behind an unequal pair; neither where both have as many.
    pub ends_first: u64,
    /// What differs in the first unequal pair, by [`DIFFERING_CODE`](crate::DIFFERING_CODE) and the other bits; the code alone
    /// where the codes differ; 0 where no pair is unequal.
    pub differing: u64,
    /// Which recording has more operations, and the first where both have as many.
    pub rest_of: u64,
    /// The byte of it where its rest starts, after as many operations as the other has.
    pub rest_at: u64,
    /// How many bytes that rest has.
    pub rest_length: u64,
}

impl Parting {
    /// Whether both recordings could be read and hold the same operations.
    pub fn is_equal(self) -> bool {
        (self.number, self.ends_first, self.differing) == (0, 0, 0)
    }

    /// The rest of the longer recording, as a part of it, where these are the two that were compared; empty where they could
    /// not be read.
    pub fn rest<'a>(self, first: &'a [u8], second: &'a [u8]) -> &'a [u8] {
        let of = match self.rest_of {
            FIRST => first,
            SECOND => second,
            _ => return &[],
        };
        let from = usize::try_from(self.rest_at).ok();
        from.and_then(|from| of.get(from..)).unwrap_or(&[])
    }
}

/// Compares two recordings, operation by operation: code, cycles and the fields that the operation has. Both are read to their
/// ends, and nothing is stepped. A number that is malformed or missing is 1, a code above 10 is 2, wherever it stands: the
/// first such number of the first recording, or else of the second.
///
/// ```
/// // A branch and a BRB IALL; the branch with other numbers, the BRB IALL, and a platform word.
/// let first = [1, 5, 0, 0, 64, 0x80, 1, 7, 3];
/// let second = [1, 5, 0, 1, 64, 0x84, 1, 7, 3, 4, 0, 49];
/// let parting = brb::compare(&first, &second);
/// assert_eq!((parting.number, parting.equal, parting.ends_first), (0, 0, brb::FIRST));
/// assert_eq!(parting.differing, brb::DIFFERING_B | brb::DIFFERING_D);
/// assert_eq!(parting.rest(&first, &second), [4, 0, 49]);
/// assert!(brb::compare(&first, &first).is_equal());
///
/// let cut = brb::compare(&first, &second[..11]);
/// assert_eq!((cut.number, cut.which, cut.at), (brb::REFUSED_MALFORMED, brb::SECOND, 11));
/// ```
#[inline]
pub fn compare(first: &[u8], second: &[u8]) -> Parting {
    // SAFETY: both are lent with their own lengths, and are only read.
    unsafe { c::brb_compare(first.as_ptr(), first.len(), second.as_ptr(), second.len()) }
}
