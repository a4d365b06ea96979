//! One engine over random sequences, watched operation by operation with no other engine beside it.

use crate::engine::Lent;
use crate::generate::{Flavour, Generator};
use crate::shrink::shrink;
use crate::{Call, Engine, Random, Sequence};
use std::ops::AddAssign;

/// An operation that was done: what was lent before it and after it.
pub struct Step<'s> {
    pub engine: &'s dyn Engine,
    pub call: Call,
    pub answer: (u64, u64),
    pub before: &'s Lent,
    pub after: &'s Lent,
    /// Its number, from 1 on, and whether it is its sequence's last.
    pub place: usize,
    pub is_last: bool,
}

/// What is known of one sequence, from a fresh state on.
pub trait Watch: Default {
    /// What is counted.
    type Seen: Default + AddAssign;
    /// What the sequences are mostly about, and how many numbers their rooms have.
    const FLAVOURS: &'static [Flavour];
    const ROOM: usize;

    /// The operation that is done in place of one that was made.
    fn tagged(&self, call: Call) -> Call {
        call
    }

    /// Looks at an operation: what was seen, or what is wrong.
    fn look(&mut self, step: &Step) -> Result<Self::Seen, String>;
}

/// Runs a sequence's operations, which `next` makes.
fn run<W: Watch>(
    engine: &dyn Engine,
    room: usize,
    length: usize,
    mut next: impl FnMut(&[u64]) -> Call,
) -> Result<W::Seen, String> {
    let mut lent = Sequence::fresh(room);
    let (mut watch, mut seen) = (W::default(), W::Seen::default());
    for place in 1..=length {
        let before = lent.clone();
        let call = watch.tagged(next(&before.state[..model::State::NUMBERS]));
        let answer = engine.step(&mut lent.state, &mut lent.room, call);
        let step = Step { engine, call, answer, before: &before, after: &lent, place, is_last: place == length };
        seen += watch.look(&step)?;
    }
    Ok(seen)
}

/// What is wrong with a sequence, if something is.
fn wrong<W: Watch>(engine: &dyn Engine, sequence: &Sequence) -> Option<String> {
    let mut calls = sequence.calls.iter();
    let next = |_: &[u64]| *calls.next().expect("as many operations as the sequence has");
    run::<W>(engine, sequence.room, sequence.calls.len(), next).err()
}

/// Random sequences, until at least so many operations were run: what was seen, or a shrunk sequence with which something is
/// wrong, and what.
pub fn explore<W: Watch>(
    engine: &dyn Engine,
    random: &mut Random,
    operations: u64,
) -> Result<W::Seen, (Sequence, String)> {
    let (mut done, mut seen) = (0, W::Seen::default());
    while done < operations {
        let length = 1 << (5 + random.below(6));
        let flavour = random.one_of(W::FLAVOURS);
        let mut generator = Generator::new(random, flavour);
        let mut calls = Vec::with_capacity(length);
        let next = |state: &[u64]| {
            let call = generator.call(state);
            calls.push(call);
            call
        };
        match run::<W>(engine, W::ROOM, length, next) {
            Ok(more) => seen += more,
            Err(_) => return Err(smallest::<W>(engine, Sequence { room: W::ROOM, calls })),
        }
        done += length as u64;
    }
    Ok(seen)
}

fn smallest<W: Watch>(engine: &dyn Engine, sequence: Sequence) -> (Sequence, String) {
    let shrunk = shrink(sequence, |simpler| wrong::<W>(engine, simpler).is_some());
    let how = wrong::<W>(engine, &shrunk).unwrap_or_default();
    (shrunk, how)
}
