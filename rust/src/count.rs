//! Cycle counts and BRBINF's field CC.

use crate::{c, Spread};

/// A cycle count as BRBINF's field CC: rounded down, and 0x3FFF above 1,048,575.
///
/// ```
/// assert_eq!(brb::count_encode(513), 0x200);
/// ```
pub fn count_encode(count: u64) -> u64 {
    // SAFETY: the function takes and gives a number and touches no memory.
    unsafe { c::brb_count_encode(count) }
}

/// What a CC field says, as the library answers it: 0 with the smallest and the largest count that have this encoding; 0
/// with 1,048,576 and no upper end where the count exceeded the counter; 4 where no count has this encoding. [`decoded`] has
/// it by name. CC of a record whose count is unknown is 0 and says nothing: [`Inf::count`](crate::Inf::count) looks at that
/// first.
///
/// ```
/// use brb::Spread;
///
/// assert_eq!(brb::count_decode(0xCFF), Spread { number: 0, low: 1_046_528, high: 1_048_575, bounded: 1 });
/// assert_eq!(brb::count_decode(0x3FFF), Spread { number: 0, low: 1_048_576, high: 0, bounded: 0 });
/// assert_eq!(brb::count_decode(0xD00), Spread { number: 4, low: 0, high: 0, bounded: 0 });
/// ```
pub fn count_decode(cc: u64) -> Spread {
    // SAFETY: as in `count_encode`.
    unsafe { c::brb_count_decode(cc) }
}

/// The sum of a run of counts by their CC fields: between which two numbers it lies. `low` is the sum of the smallest counts
/// and `high` that of the largest; where one of them exceeded the counter there is no upper end. Answers 4 where one of them
/// is no encoding, wherever it stands; else 9 where `low`, or `high` if there is one, would pass 2^64 - 1. No fields at all
/// add up to 0, with an upper end.
///
/// ```
/// assert_eq!(brb::count_sum(&[0x7C4, 0x12C]).ends(), Ok((29_228, Some(29_291))));
/// assert_eq!(brb::count_sum(&[0x12C, 0x3FFF]).ends(), Ok((1_048_876, None)));
/// assert_eq!(brb::count_sum(&[0x3FFF, 0xD00]).ends(), Err(brb::REFUSED_OUTSIDE_LIST));
/// assert_eq!(brb::count_sum(&[]).ends(), Ok((0, Some(0))));
/// ```
pub fn count_sum(cc: &[u64]) -> Spread {
    // SAFETY: the pointer comes with its slice's own length and is not null, even where that is 0; the fields are only read.
    unsafe { c::brb_count_sum(cc.as_ptr(), cc.len()) }
}

/// What a CC field says.
#[derive(Clone, Copy, Debug, PartialEq, Eq)]
pub enum Count {
    /// The count lies between two numbers: every one of them has this encoding.
    Known {
        /// The smallest count that has this encoding.
        low: u64,
        /// The largest.
        high: u64,
    },
    /// The count exceeded the counter: it is 1,048,576 or more.
    Exceeded,
}

/// What a CC field says, none where no count has this encoding.
///
/// ```
/// use brb::Count;
///
/// assert_eq!(brb::decoded(0xCFF), Some(Count::Known { low: 1_046_528, high: 1_048_575 }));
/// assert_eq!(brb::decoded(0x3FFF), Some(Count::Exceeded));
/// assert_eq!(brb::decoded(0xD00), None);
/// ```
pub fn decoded(cc: u64) -> Option<Count> {
    match count_decode(cc).ends() {
        Ok((low, Some(high))) => Some(Count::Known { low, high }),
        Ok((_, None)) => Some(Count::Exceeded),
        Err(_) => None,
    }
}
