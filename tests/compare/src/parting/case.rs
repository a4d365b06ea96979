use crate::parting::comparing::NAMES;
use crate::parting::{Comparing, Numbers, Walk};
use crate::recording::{hex, with_smaller_byte};
use crate::shrink::{parts, smaller, with_part_dropped};
use crate::Case;
use std::fmt;
use std::ops::Range;

/// Bytes that stand behind a recording and are not lent: a number that is missing would be found there.
const BEHIND: [u8; 64] = [1; 64];

/// Two recordings.
#[derive(Clone, Debug, PartialEq, Eq)]
pub struct Pair {
    pub first: Vec<u8>,
    pub second: Vec<u8>,
}

impl Pair {
    /// What both engines answer, and what single reads of the first find in each recording; or how something disagrees: the
    /// engines, the first's answer and its single reads, its rest and the recording's part, its answer and that of the two
    /// swapped, or its answer of a recording with itself.
    pub fn compare(&self, engines: [&dyn Comparing; 2]) -> Result<(Numbers, [Walk; 2]), String> {
        let longer = [&self.first, &self.second].map(|bytes| [&bytes[..], &BEHIND].concat());
        let lent = [&longer[0][..self.first.len()], &longer[1][..self.second.len()]];
        let [(answer, rest), (other, _)] = engines.map(|engine| engine.compared(lent[0], lent[1]));
        same(engines.map(|engine| engine.name()), [answer, other])?;
        let walks = lent.map(|bytes| Walk::of(engines[0], bytes));
        same(["one call", "single reads"], [answer, Walk::numbers(&walks, lent)])?;
        is_part(answer, lent, rest)?;
        for (bytes, walk) in lent.into_iter().zip(&walks) {
            let (alone, rest) = engines[0].compared(bytes, bytes);
            same(["with itself", "single reads"], [alone, walk.alone()])?;
            is_part(alone, [bytes; 2], rest)?;
        }
        let (swapped, rest) = engines[0].compared(lent[1], lent[0]);
        same(["swapped", "one call"], [swapped, exchanged(answer, &walks)])?;
        is_part(swapped, [lent[1], lent[0]], rest)?;
        Ok((answer, walks))
    }

    /// The same with a part of each taken out, as far as it has it.
    fn without(&self, part: Range<usize>) -> Pair {
        let [first, second] = [&self.first, &self.second].map(|bytes| {
            let [from, to] = [part.start, part.end].map(|place| place.min(bytes.len()));
            [&bytes[..from], &bytes[to..]].concat()
        });
        Pair { first, second }
    }

    /// The same with a byte made smaller that both have at one place.
    fn with_smaller_byte_of_both(&self) -> impl Iterator<Item = Pair> + '_ {
        let both = self.first.iter().zip(&self.second).enumerate().filter(|(_, (one, other))| one == other);
        both.flat_map(move |(place, (&byte, _))| {
            smaller(u64::from(byte)).map(move |smaller| {
                let mut pair = self.clone();
                (pair.first[place], pair.second[place]) = (smaller as u8, smaller as u8);
                pair
            })
        })
    }
}

/// Nothing, or the first of the nine numbers that differs.
fn same(names: [&str; 2], [left, right]: [Numbers; 2]) -> Result<(), String> {
    match (0..NAMES.len()).find(|&place| left[place] != right[place]) {
        None => Ok(()),
        Some(place) => Err(format!("{}: {} {left:?}, {} {right:?}", NAMES[place], names[0], names[1])),
    }
}

/// Whether the rest that was handed back is the very part of the lent recording that the numbers tell; an empty one where a
/// recording cannot be read.
fn is_part(answer: Numbers, lent: [&[u8]; 2], rest: &[u8]) -> Result<(), String> {
    let [number, .., rest_of, rest_at, rest_length] = answer;
    let right = if number != 0 {
        rest.is_empty()
    } else {
        let part = lent[rest_of as usize - 1].get(rest_at as usize..);
        part.is_some_and(|part| part.as_ptr_range() == rest.as_ptr_range()) && rest.len() as u64 == rest_length
    };
    if right {
        return Ok(());
    }
    Err(format!("rest: {} bytes that are not the part of {answer:?}", rest.len()))
}

/// What has to be answered where the two are swapped: the other one ends first, or has the rest. What names the first alone
/// goes by the recording that is the first now: its bad number goes before, and its rest is told where both have as many
/// operations.
fn exchanged(
    [_, _, _, equal, ends_first, differing, rest_of, rest_at, rest_length]: Numbers,
    walks: &[Walk; 2],
) -> Numbers {
    match (walks[1].bad, walks[0].bad) {
        (Some((number, at)), _) => [number, 1, at, 0, 0, 0, 0, 0, 0],
        (None, Some((number, at))) => [number, 2, at, 0, 0, 0, 0, 0, 0],
        _ if ends_first == 0 => [0, 0, 0, equal, 0, differing, 1, walks[1].length as u64, 0],
        _ => [0, 0, 0, equal, 3 - ends_first, differing, 3 - rest_of, rest_at, rest_length],
    }
}

impl Case for Pair {
    fn simpler(&self) -> Box<dyn Iterator<Item = Self> + '_> {
        let with_first = |first: Vec<u8>| Pair { first, ..self.clone() };
        let with_second = |second: Vec<u8>| Pair { second, ..self.clone() };
        let both = parts(self.first.len().max(self.second.len())).map(|part| self.without(part));
        let shorter = with_part_dropped(&self.first).map(with_first);
        let shorter = both.chain(shorter).chain(with_part_dropped(&self.second).map(with_second));
        let plainer = with_smaller_byte(&self.first).map(with_first);
        let plainer = plainer.chain(with_smaller_byte(&self.second).map(with_second));
        Box::new(shorter.chain(self.with_smaller_byte_of_both()).chain(plainer))
    }
}

impl fmt::Display for Pair {
    fn fmt(&self, f: &mut fmt::Formatter<'_>) -> fmt::Result {
        let written = |bytes: &[u8]| if bytes.is_empty() { "no bytes".into() } else { hex(bytes) };
        write!(f, "{} beside {}", written(&self.first), written(&self.second))
    }
}
