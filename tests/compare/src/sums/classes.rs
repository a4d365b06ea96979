//! Which outcomes of sums were met, and how often.

use crate::recording::classes::rare;
use crate::sums::{LentRun, Numbers};
use model::count::EXCEEDED;
use model::{Counts, Document01};
use std::fmt;

/// What a run comes to, or a part of it.
const OUTCOMES: [&str; 4] = ["no encodings", "all known", "exceeded", "refused 4"];
/// Where one of a kind stands in its run.
const PLACES: [&str; 4] = ["alone", "first", "last", "between"];
/// What is met first in a run that is refused.
const REFUSED: [&str; 3] = ["with none that exceeded", "before one that exceeded", "behind one that exceeded"];
/// Where in the longer list a run is lent.
const LENT: [&str; 4] = ["at an even place", "at an odd place", "to the list's end", "with more behind it"];

/// How often each class was met.
#[derive(Clone, Debug, Default)]
pub struct Classes {
    outcomes: [u64; OUTCOMES.len()],
    exceeded: [u64; PLACES.len()],
    outside: [u64; PLACES.len()],
    refused: [u64; REFUSED.len()],
    lent: [u64; LENT.len()],
    parts: [[u64; OUTCOMES.len()]; OUTCOMES.len()],
}

impl Classes {
    /// Notes a run and what it was answered.
    pub fn note(&mut self, run: &LentRun, answer: Numbers) {
        let encodings = &run.encodings[..];
        self.outcomes[answered(encodings, answer)] += 1;
        if answer[0] == 0 {
            note_places(&mut self.exceeded, encodings, exceeded);
        } else {
            note_places(&mut self.outside, encodings, outside);
            self.refused[met_first(encodings)] += 1;
        }
        self.lent[run.before.len() % 2] += 1;
        self.lent[2 + usize::from(!run.behind.is_empty())] += 1;
        let [first, second] = run.parts().map(outcome);
        self.parts[first][second] += 1;
    }

    /// The classes that were met fewer than `least` times.
    pub fn rare(&self, least: u64) -> Vec<String> {
        let worded = self.worded().into_iter().flat_map(|(group, names, met)| {
            names.iter().zip(met).map(move |(name, &met)| (format!("{group}: {name}"), met))
        });
        let parts = OUTCOMES.iter().zip(&self.parts).flat_map(|(first, met)| {
            OUTCOMES.iter().zip(met).map(move |(second, &met)| (format!("parts: {first}, then {second}"), met))
        });
        rare(worded.chain(parts), least)
    }

    /// The groups, without that of the parts.
    fn worded(&self) -> [(&str, &[&str], &[u64]); 5] {
        [
            ("runs", &OUTCOMES, &self.outcomes),
            ("one that exceeded, in a run that is not refused", &PLACES, &self.exceeded),
            ("one outside the list", &PLACES, &self.outside),
            ("the first outside the list", &REFUSED, &self.refused),
            ("lent", &LENT, &self.lent),
        ]
    }
}

fn exceeded(cc: u64) -> bool {
    cc == EXCEEDED
}

fn outside(cc: u64) -> bool {
    Document01.decode(cc).is_err()
}

/// What a part of a run comes to, by its encodings.
fn outcome(encodings: &[u64]) -> usize {
    let any = |kind: fn(u64) -> bool| encodings.iter().any(|&cc| kind(cc));
    match encodings {
        [] => 0,
        _ if any(outside) => 3,
        _ if any(exceeded) => 2,
        _ => 1,
    }
}

/// What a run came to, by its answer.
fn answered(encodings: &[u64], [number, _, _, bounded]: Numbers) -> usize {
    match (number, bounded) {
        (4, _) => 3,
        (0, 0) => 2,
        (0, _) => usize::from(!encodings.is_empty()),
        _ => panic!("{number} is no answer to a run that can be lent"),
    }
}

/// Notes each of the places at which one of a kind stands.
fn note_places(met: &mut [u64; PLACES.len()], encodings: &[u64], kind: fn(u64) -> bool) {
    let stands = match encodings {
        [] => [false; PLACES.len()],
        &[alone] => [kind(alone), false, false, false],
        &[first, ref between @ .., last] => [false, kind(first), kind(last), between.iter().any(|&cc| kind(cc))],
    };
    met.iter_mut().zip(stands).for_each(|(met, stands)| *met += u64::from(stands));
}

/// Whether a run that is refused has one that exceeded, and where.
fn met_first(encodings: &[u64]) -> usize {
    let place = |kind: fn(u64) -> bool| encodings.iter().position(|&cc| kind(cc));
    match (place(exceeded), place(outside)) {
        (None, _) => 0,
        (exceeded, outside) if outside < exceeded => 1,
        _ => 2,
    }
}

impl fmt::Display for Classes {
    fn fmt(&self, f: &mut fmt::Formatter<'_>) -> fmt::Result {
        for (group, names, met) in self.worded() {
            writeln!(f, "  {group}:")?;
            for (name, met) in names.iter().zip(met) {
                writeln!(f, "    {name:<32}{met:>8}")?;
            }
        }
        write!(f, "  parts, first by second:{:<4}", "")?;
        OUTCOMES.iter().try_for_each(|second| write!(f, "{second:>14}"))?;
        writeln!(f)?;
        for (first, met) in OUTCOMES.iter().zip(&self.parts) {
            write!(f, "    {first:<24}")?;
            met.iter().try_for_each(|met| write!(f, "{met:>14}"))?;
            writeln!(f)?;
        }
        Ok(())
    }
}
