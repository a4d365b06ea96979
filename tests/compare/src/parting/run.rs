//! Random pairs of recordings, one after another, until two engines disagree or enough were tried.

use crate::parting::make::Maker;
use crate::parting::{Classes, Comparing, Pair};
use crate::recording::{damage, Recording};
use crate::run::Disagreement;
use crate::shrink::shrink;
use crate::Random;
use model::{Comparisons, Document01};

/// A recording that is cut has at most so many operations.
const MOST: u64 = 5;
/// Each of so many of a recording's bytes is changed in several ways.
const CHANGED: usize = 24;

/// How many pairs agreed, and how many operations they had.
#[derive(Clone, Copy, Debug, Default, PartialEq, Eq)]
pub struct Agreed {
    pub pairs: u64,
    pub operations: u64,
}

impl Agreed {
    /// One pair more, or how it disagrees.
    fn with(&mut self, engines: [&dyn Comparing; 2], pair: Pair, classes: &mut Classes) -> Result<(), Disagreement> {
        match pair.compare(engines) {
            Ok((answer, walks)) => {
                self.pairs += 1;
                self.operations += walks.iter().map(|walk| walk.ends.len() as u64).sum::<u64>();
                classes.note(&pair, answer, &walks);
                Ok(())
            }
            Err(_) => Err(disagreement(engines, pair, self.operations)),
        }
    }
}

/// So many rounds of pairs.
pub fn pairs(
    engines: [&dyn Comparing; 2],
    random: &mut Random,
    rounds: usize,
    classes: &mut Classes,
) -> Result<Agreed, Disagreement> {
    let (maker, mut agreed) = (Maker::new(random), Agreed::default());
    for _ in 0..rounds {
        for pair in maker.round(random) {
            agreed.with(engines, pair, classes)?;
        }
    }
    Ok(agreed)
}

/// So many recordings, each cut before each of its bytes and changed at each byte, beside the whole one; and each cut beside
/// each other cut.
pub fn cuts(
    engines: [&dyn Comparing; 2],
    random: &mut Random,
    recordings: usize,
    classes: &mut Classes,
) -> Result<Agreed, Disagreement> {
    let mut agreed = Agreed::default();
    for _ in 0..recordings {
        let length = 1 + random.below(MOST) as usize;
        let recording = Recording::of_any(random, length);
        let whole = &recording.bytes;
        for (first, second) in (0..=whole.len()).flat_map(|first| (0..=whole.len()).map(move |second| (first, second)))
        {
            let pair = Pair { first: whole[..first].to_vec(), second: whole[..second].to_vec() };
            agreed.with(engines, pair, classes)?;
        }
        let changed: Vec<damage::Damaged> = damage::changed(&recording, random).collect();
        for damaged in changed.into_iter().filter(|damaged| damaged.first < CHANGED) {
            agreed.with(engines, Pair { first: whole.clone(), second: damaged.bytes.clone() }, classes)?;
            agreed.with(engines, Pair { first: damaged.bytes, second: whole.clone() }, classes)?;
        }
    }
    Ok(agreed)
}

fn disagreement(engines: [&dyn Comparing; 2], pair: Pair, after: u64) -> Disagreement {
    let shrunk = shrink(pair, |simpler| simpler.compare(engines).is_err());
    let how = shrunk.compare(engines).err().unwrap_or_default();
    let operations = [&shrunk.first, &shrunk.second].map(|bytes| Document01.held(bytes).operations.len());
    Disagreement { after, operations: operations.iter().sum(), case: shrunk.to_string(), how }
}
