//! Random cases, one after another, until two engines disagree or enough were tried.

use crate::generate::{self, Flavour, Generator};
use crate::sequence::Bed;
use crate::shrink::shrink;
use crate::{Engine, Random, Sequence, Shares, Since, Single};

/// A shrunk case on which two engines disagree.
#[derive(Clone, Debug)]
pub struct Disagreement {
    /// How many operations agreed before.
    pub after: u64,
    /// How many operations the shrunk case has.
    pub operations: usize,
    /// The shrunk case as numbers.
    pub case: String,
    /// How the engines disagree on it.
    pub how: String,
}

impl std::fmt::Display for Disagreement {
    fn fmt(&self, f: &mut std::fmt::Formatter<'_>) -> std::fmt::Result {
        writeln!(f, "disagreement after {} operations, shrunk to {}:", self.after, self.operations)?;
        writeln!(f, "  {}", self.case)?;
        write!(f, "  {}", self.how)
    }
}

/// Sequences from a fresh state, until at least so many operations agreed. Answers how many did.
pub fn sequences(
    engines: [&dyn Engine; 2],
    random: &mut Random,
    operations: u64,
    shares: &mut Shares,
) -> Result<u64, Disagreement> {
    let mut agreed = 0;
    while agreed < operations {
        match one_sequence(engines, random, shares) {
            Ok(calls) => agreed += calls,
            Err(sequence) => return Err(of_sequence(engines, sequence, agreed)),
        }
    }
    Ok(agreed)
}

/// One sequence, made as it goes: how many operations it had, or the operations up to the disagreement.
fn one_sequence(engines: [&dyn Engine; 2], random: &mut Random, shares: &mut Shares) -> Result<u64, Sequence> {
    let (room, length) = (generate::room(random), generate::length(random));
    // Records have to go round a buffer of 64 before its last places are met.
    let flavour = if random.percent(10) { Flavour::Rounding } else { random.one_of(&Flavour::ALL) };
    let mut generator = Generator::new(random, flavour);
    let (mut bed, mut since) = (Bed::new(engines, room), Since::default());
    let mut calls = Vec::with_capacity(length);
    for _ in 0..length {
        let mut before = [0; model::State::NUMBERS];
        before.copy_from_slice(&bed.lent().state[..model::State::NUMBERS]);
        let call = generator.call(&before);
        calls.push(call);
        match bed.step(call) {
            Ok((number, _)) => shares.note_in_sequence(&mut since, &before, call, number, bed.lent()),
            Err(_) => return Err(Sequence { room, calls }),
        }
    }
    Ok(length as u64)
}

fn of_sequence(engines: [&dyn Engine; 2], sequence: Sequence, after: u64) -> Disagreement {
    let after = after + sequence.calls.len() as u64 - 1;
    let shrunk = shrink(sequence, |simpler| simpler.disagreement(engines).is_some());
    let how =
        shrunk.disagreement(engines).map_or(String::new(), |(place, how)| format!("operation {}: {how}", place + 1));
    Disagreement { after, operations: shrunk.calls.len(), case: shrunk.to_string(), how }
}

/// Single calls on random states and rooms, so many.
pub fn singles(
    engines: [&dyn Engine; 2],
    random: &mut Random,
    operations: u64,
    shares: &mut Shares,
) -> Result<u64, Disagreement> {
    for after in 0..operations {
        let (single, reason) = generate::single(random);
        match single.compare(engines) {
            Ok(((number, _), lent)) => {
                shares.note(&single.state, single.call, number, &lent);
            }
            Err(_) => return Err(of_single(engines, single, after)),
        }
        if let Some(reason) = reason {
            shares.note_unsound(reason);
        }
    }
    Ok(operations)
}

fn of_single(engines: [&dyn Engine; 2], single: Single, after: u64) -> Disagreement {
    let shrunk = shrink(single, |simpler| simpler.compare(engines).is_err());
    let how = shrunk.compare(engines).err().unwrap_or_default();
    Disagreement { after, operations: 1, case: shrunk.to_string(), how }
}
