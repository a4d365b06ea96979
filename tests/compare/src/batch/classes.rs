//! Which outcomes of batches were met, and how often.

use crate::batch::{Batch, Singles};
use crate::recording::classes::{answers, named, place, rare};
use crate::recording::reading::Fault;
use crate::recording::Reading;
use model::{Batches, Document01};
use std::fmt;

/// Which answers a call has, its operations, and those that are refused between two others.
const CALLED: [u64; 3] = [0, 6, 7];
const OPERATED: [u64; 11] = [0, 100, 102, 103, 1, 2, 3, 4, 8, 5, 6];
const MIDDLE: [u64; 5] = [3, 4, 8, 5, 6];

/// Where an operation stands that ends its batch.
const LAST: [&str; 4] = ["1 at the first operation", "1 later", "2 at the first operation", "2 later"];
/// A run of no bytes.
const EMPTY: [&str; 3] = ["with no answers lent", "with answers lent", "on an unsound state"];
/// An unsound state, by the numbers that are lent for answers.
const UNSOUND: [&str; 2] = ["with too few for the answers", "with enough for the answers"];
/// What an operation of a batch makes of the start: a record below it or, from place 0, at the last place; a reset or a
/// performed BRB IALL; and everything else.
const STARTS: [&str; 4] = ["moved down", "gone round", "put to 0", "kept, not 0"];
/// Runs with as many operations as their bytes can hold.
const DENSEST: [&str; 4] = ["even, one too few", "even, exact", "odd, one too few", "odd, exact"];

/// What a run ends with, and how many numbers are lent for its answers.
const ENDS: [&str; 7] =
    ["the bytes", "missing", "cut off", "not shortest", "2^64 or more", "over ten bytes", "unknown code"];
const LENT: [&str; 6] = ["none", "two too few", "one too few", "exact", "one more", "more"];
const ONE_TOO_FEW: usize = 2;
const EXACT: usize = 3;

/// How often each class was met.
#[derive(Clone, Debug, Default)]
pub struct Classes {
    called: [u64; CALLED.len()],
    operated: [u64; OPERATED.len()],
    middle: [u64; MIDDLE.len()],
    last: [u64; LAST.len()],
    empty: [u64; EMPTY.len()],
    unsound: [u64; UNSOUND.len()],
    densest: [u64; DENSEST.len()],
    starts: [u64; STARTS.len()],
    ends: [[u64; LENT.len()]; ENDS.len()],
}

impl Classes {
    /// Notes a batch, what the call answered, and what single calls make of it.
    pub fn note(&mut self, batch: &Batch, number: u64, singles: &Singles) {
        self.called[place(&CALLED, number)] += 1;
        match (singles.sound, batch.bytes.is_empty()) {
            (false, true) => self.empty[2] += 1,
            (false, false) => self.unsound[usize::from(has_enough(batch))] += 1,
            (true, true) => self.empty[usize::from(batch.answers > 0)] += 1,
            (true, false) => self.note_run(batch, number, singles),
        }
    }

    fn note_run(&mut self, batch: &Batch, number: u64, singles: &Singles) {
        let lent = lent_class(batch.answers, 2 * singles.answers.len());
        self.ends[end_class(batch, singles)][lent] += 1;
        if is_densest(batch, singles) && matches!(lent, ONE_TOO_FEW | EXACT) {
            self.densest[2 * (batch.bytes.len() % 2) + lent - ONE_TOO_FEW] += 1;
        }
        if number == 0 {
            self.note_answers(singles);
        }
    }

    /// The answers of a batch that was not refused.
    fn note_answers(&mut self, singles: &Singles) {
        for (operation, &(number, _)) in singles.answers.iter().enumerate() {
            self.operated[place(&OPERATED, number)] += 1;
            start_class(singles.newest[operation]).into_iter().for_each(|class| self.starts[class] += 1);
            if operation > 0 && MIDDLE.contains(&number) && accepted_after(singles, operation) {
                self.middle[place(&MIDDLE, number)] += 1;
            }
        }
        if let Some(last) = singles.unreadable() {
            let code = singles.answers[last].0 == 2;
            self.last[2 * usize::from(code) + usize::from(last > 0)] += 1;
        }
    }

    /// The classes that were met fewer than `least` times.
    pub fn rare(&self, least: u64) -> Vec<String> {
        let called = named("called", &CALLED, &self.called);
        let operated = named("operations", &OPERATED, &self.operated);
        let middle = named("refused in the middle", &MIDDLE, &self.middle);
        let worded = self.worded().into_iter().flat_map(|(group, names, met)| {
            names.iter().zip(met).map(move |(name, &met)| (format!("{group}: {name}"), met))
        });
        let ends = ENDS.iter().zip(&self.ends).flat_map(|(end, met)| {
            LENT.iter().zip(met).map(move |(lent, &met)| (format!("ended by {end}, answers lent: {lent}"), met))
        });
        rare(called.chain(operated).chain(middle).chain(worded).chain(ends), least)
    }

    /// The groups whose classes have words for names.
    fn worded(&self) -> [(&str, &[&str], &[u64]); 5] {
        [
            ("ended by an operation", &LAST, &self.last),
            ("no bytes", &EMPTY, &self.empty),
            ("unsound states", &UNSOUND, &self.unsound),
            ("densest runs", &DENSEST, &self.densest),
            ("starts", &STARTS, &self.starts),
        ]
    }
}

/// Whether the numbers that are lent would be enough, if the state were sound.
fn has_enough(batch: &Batch) -> bool {
    batch.answers >= 2 * Document01.answered_operations(&batch.bytes)
}

/// What became of a start: none where it was 0 and is 0.
fn start_class([before, after]: [u64; 2]) -> Option<usize> {
    match (before, after) {
        (0, 0) => None,
        (0, _) => Some(1),
        _ if after == before => Some(3),
        _ if after == before - 1 => Some(0),
        _ => Some(2),
    }
}

/// Whether an operation behind this one is accepted: a batch that ended here would not have come to it.
fn accepted_after(singles: &Singles, operation: usize) -> bool {
    singles.answers[operation + 1..].iter().any(|&(number, _)| matches!(number, 0 | 100..))
}

/// Whether a run has one operation for each two bytes, and one for a last byte alone.
fn is_densest(batch: &Batch, singles: &Singles) -> bool {
    singles.answers.len() == batch.bytes.len().div_ceil(2)
}

/// What a run ends with, by its bytes alone.
fn end_class(batch: &Batch, singles: &Singles) -> usize {
    let reading = singles.unreadable().map(|last| Reading::of(&batch.bytes, singles.starts[last]));
    match reading {
        None | Some(Reading::Operation) => 0,
        Some(Reading::Faulty { fault: Fault::Missing, .. }) => 1,
        Some(Reading::Faulty { fault, .. }) => 1 + fault as usize,
        Some(Reading::UnknownCode { .. }) => ENDS.len() - 1,
    }
}

/// How many numbers are lent for answers, beside those that are needed, of which there is one.
fn lent_class(lent: usize, needed: usize) -> usize {
    match (lent, lent as i64 - needed as i64) {
        (0, _) => 0,
        (_, ..=-2) => 1,
        (_, more @ -1..=1) => (EXACT as i64 + more) as usize,
        _ => 5,
    }
}

impl fmt::Display for Classes {
    fn fmt(&self, f: &mut fmt::Formatter<'_>) -> fmt::Result {
        answers(f, "called", &CALLED, &self.called)?;
        answers(f, "operated", &OPERATED, &self.operated)?;
        answers(f, "refused in the middle ", &MIDDLE, &self.middle)?;
        for (group, names, met) in self.worded() {
            writeln!(f, "  {group}:")?;
            for (name, met) in names.iter().zip(met) {
                writeln!(f, "    {name:<32}{met:>8}")?;
            }
        }
        write!(f, "  ended by:{:<9}", "")?;
        LENT.iter().try_for_each(|lent| write!(f, "{lent:>14}"))?;
        writeln!(f)?;
        for (end, met) in ENDS.iter().zip(&self.ends) {
            write!(f, "    {end:<14}")?;
            met.iter().try_for_each(|met| write!(f, "{met:>14}"))?;
            writeln!(f)?;
        }
        Ok(())
    }
}
