use crate::shrink::{smaller, with_part_dropped, with_smaller_number};
use crate::sums::{Counting, Numbers};
use crate::Case;
use std::fmt;

/// The sum of no encodings.
const NOTHING: Numbers = [0, 0, 0, 1];
/// Of a longer run so many encodings are printed.
const PRINTED: usize = 16;

/// A run of encodings, lent out of a longer list. What is not lent would be seen in the sum if it were added.
#[derive(Clone, Debug, PartialEq, Eq)]
pub struct LentRun {
    pub before: Vec<u64>,
    pub encodings: Vec<u64>,
    pub behind: Vec<u64>,
    /// How many encodings the first of two parts has, as far as there are so many.
    pub first_part: usize,
}

impl LentRun {
    /// What both answer; or how something disagrees: the two, the first's sum and its sums of the parts, or its sum and what
    /// it decodes.
    pub fn compare(&self, both: [&dyn Counting; 2]) -> Result<Numbers, String> {
        let list = [&self.before[..], &self.encodings, &self.behind].concat();
        let lent = &list[self.before.len()..][..self.encodings.len()];
        let [answer, other] = both.map(|one| one.sum(lent));
        same(both.map(|one| one.name()), [answer, other])?;
        let (first, second) = lent.split_at(self.parts()[0].len());
        let parts = added(both[0].sum(first), both[0].sum(second));
        same(["one call", "its two parts added"], [answer, parts])?;
        let decoded = lent.iter().map(|&cc| both[0].decode(cc)).fold(NOTHING, added);
        same(["one call", "what is decoded, added"], [answer, decoded])?;
        Ok(answer)
    }

    /// The encodings of the two parts.
    pub fn parts(&self) -> [&[u64]; 2] {
        let (first, second) = self.encodings.split_at(self.first_part.min(self.encodings.len()));
        [first, second]
    }
}

/// Two sums in one. There is an upper end where both have one. No run is so long that a sum comes near 2^64.
fn added(one: Numbers, other: Numbers) -> Numbers {
    match (one, other) {
        ([0, low, high, 1], [0, more, higher, 1]) => [0, low + more, high + higher, 1],
        ([0, low, ..], [0, more, ..]) => [0, low + more, 0, 0],
        ([0, ..], refused) => refused,
        (refused, _) => refused,
    }
}

/// Nothing, or the difference in words.
fn same(names: [&str; 2], [left, right]: [Numbers; 2]) -> Result<(), String> {
    if left == right {
        return Ok(());
    }
    Err(format!("{} {left:?}, {} {right:?} (number, low, high, bounded)", names[0], names[1]))
}

impl Case for LentRun {
    fn simpler(&self) -> Box<dyn Iterator<Item = Self> + '_> {
        let with = |encodings| LentRun { encodings, ..self.clone() };
        let shorter = with_part_dropped(&self.encodings).map(with);
        let before = with_part_dropped(&self.before).map(|before| LentRun { before, ..self.clone() });
        let behind = with_part_dropped(&self.behind).map(|behind| LentRun { behind, ..self.clone() });
        let parts = smaller(self.first_part as u64).map(|part| LentRun { first_part: part as usize, ..self.clone() });
        let plainer = with_smaller_number(&self.encodings).map(with);
        Box::new(shorter.chain(before).chain(behind).chain(parts).chain(plainer))
    }
}

impl fmt::Display for LentRun {
    fn fmt(&self, f: &mut fmt::Formatter<'_>) -> fmt::Result {
        let LentRun { before, encodings, behind, first_part } = self;
        let written: Vec<String> = encodings.iter().take(PRINTED).map(|cc| format!("{cc:#X}")).collect();
        let more = if encodings.len() > PRINTED { " …" } else { "" };
        write!(f, "[{}{more}]  (run of {}; {} numbers before ", written.join(" "), encodings.len(), before.len())?;
        write!(f, "and {} behind; first part of {first_part})", behind.len())
    }
}
