//! Random runs of encodings, one after another, until two disagree on a sum or enough were tried.

use crate::shrink::shrink;
use crate::sums::{make, Classes, Counting, LentRun};
use crate::Random;
use std::fmt;

/// A shrunk run on which two disagree.
#[derive(Clone, Debug)]
pub struct Disagreement {
    /// How many runs agreed before.
    pub after: usize,
    /// The shrunk run.
    pub run: LentRun,
    /// How they disagree on it.
    pub how: String,
}

impl fmt::Display for Disagreement {
    fn fmt(&self, f: &mut fmt::Formatter<'_>) -> fmt::Result {
        writeln!(f, "disagreement after {} runs, shrunk to {} encodings:", self.after, self.run.encodings.len())?;
        writeln!(f, "  {}", self.run)?;
        write!(f, "  {}", self.how)
    }
}

/// So many runs. Answers how many encodings they had.
pub fn sums(
    both: [&dyn Counting; 2],
    random: &mut Random,
    runs: usize,
    classes: &mut Classes,
) -> Result<usize, Disagreement> {
    let mut encodings = 0;
    for number in 0..runs {
        let run = make::run(random, number);
        match run.compare(both) {
            Ok(answer) => classes.note(&run, answer),
            Err(_) => return Err(disagreement(both, run, number)),
        }
        encodings += run.encodings.len();
    }
    Ok(encodings)
}

fn disagreement(both: [&dyn Counting; 2], run: LentRun, after: usize) -> Disagreement {
    let run = shrink(run, |simpler| simpler.compare(both).is_err());
    let how = run.compare(both).err().unwrap_or_default();
    Disagreement { after, run, how }
}
