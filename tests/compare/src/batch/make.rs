//! Random runs, on any state and room, with any number of numbers for their answers.

use crate::batch::ends::{self, Ends};
use crate::batch::Batch;
use crate::engine::Lent;
use crate::generate::{self, Flavour, Generator, SIZES};
use crate::recording::{damage, Recording};
use crate::shares::REASONS;
use crate::{Call, Random, Sequence};
use model::{own_fields, Batches, Document01, Rules, State};

/// Rooms that hold some sizes.
const ROOMS: [usize; 6] = [24, 47, 48, 95, 96, 191];
/// What runs are mostly about: mistakes and accesses more often, since they have more outcomes.
const FLAVOURS: [Flavour; 10] = [
    Flavour::Recording,
    Flavour::Roaming,
    Flavour::Boundary,
    Flavour::Halting,
    Flavour::Freezing,
    Flavour::Accessing,
    Flavour::Accessing,
    Flavour::Careless,
    Flavour::Careless,
    Flavour::Careless,
];
/// How many ways there are to lend numbers for answers (the order of [`answers`]).
const WAYS: usize = 6;
/// How many unsound states a round has.
const UNSOUND: usize = 2;

/// What the batches of a round are made of.
struct Round<'r> {
    random: &'r mut Random,
    ends: &'r Ends,
    /// Its number, by which its batches take turns in what they are about.
    number: usize,
    lent: Lent,
    run: Vec<u8>,
}

/// The batches of a round: one run with each end and damaged, each end alone, the densest, no bytes, and unsound states. The
/// second is the reason's number where the state is not sound.
pub fn round(random: &mut Random, ends: &Ends, number: usize) -> Vec<(Batch, Option<usize>)> {
    let mut lent = lent(random);
    let run = run(random, lent.clone()).bytes;
    // One number at least is lent past those of the state.
    lent.state.extend((lent.state.len()..State::NUMBERS + 1).map(|place| place as u64));
    let mut round = Round { random, ends, number, lent, run };
    let sound = [round.ended(), vec![round.damaged(), round.end_alone(), round.densest(), round.empty()]].concat();
    let sound = sound.into_iter().map(|batch| (batch, None));
    let unsound = (0..UNSOUND).map(|nth| round.unsound(nth));
    sound.chain(unsound.collect::<Vec<_>>()).collect()
}

impl Round<'_> {
    /// A batch of these bytes on what is lent, with numbers for its answers lent in this way.
    fn batch(&mut self, bytes: Vec<u8>, way: usize) -> Batch {
        let operations = Document01.answered_operations(&bytes);
        let answers = answers(self.random, way % WAYS, operations, bytes.len());
        let first_part = self.random.below(operations as u64 + 1) as usize;
        let Lent { state, room } = self.lent.clone();
        Batch { state, room, bytes, answers, first_part }
    }

    /// The run as it is, and with each end behind it.
    fn ended(&mut self) -> Vec<Batch> {
        let mut batches = vec![self.batch(self.run.clone(), self.number)];
        for kind in 0..Ends::KINDS {
            let bytes = [&self.run, self.ends.one_of(self.random, kind)].concat();
            batches.push(self.batch(bytes, self.number + kind + 1));
        }
        batches
    }

    /// The run with damage anywhere, or noise.
    fn damaged(&mut self) -> Batch {
        let run = Recording { bytes: self.run.clone(), ..Recording::default() };
        let bytes = if self.number % 2 == 0 { damage::noise(self.random) } else { damage::anywhere(&run, self.random) };
        let way = self.random.below(WAYS as u64) as usize;
        self.batch(bytes, way)
    }

    /// An end at the first operation, an unknown code every other time.
    fn end_alone(&mut self) -> Batch {
        let any = self.random.below(Ends::KINDS as u64) as usize;
        let kind = if self.number % 2 == 0 { Ends::UNKNOWN_CODE } else { any };
        let bytes = self.ends.one_of(self.random, kind).to_vec();
        let way = self.random.below(WAYS as u64) as usize;
        self.batch(bytes, way)
    }

    /// A run with as many operations as its bytes can hold, with numbers that are just enough for its answers or one too few.
    fn densest(&mut self) -> Batch {
        let operations = 1 + self.random.below(9);
        let bytes = ends::densest(self.random, operations, self.number % 2 == 0);
        self.batch(bytes, 2 + self.number / 2 % 2)
    }

    fn empty(&mut self) -> Batch {
        let batch = self.batch(Vec::new(), 0);
        Batch { answers: self.number % 2 * (self.number % 7), ..batch }
    }

    /// An unsound state, with the run or with no bytes.
    fn unsound(&mut self, nth: usize) -> (Batch, Option<usize>) {
        let reason = (UNSOUND * self.number + nth) % REASONS;
        let bytes = if self.random.percent(20) { Vec::new() } else { self.run.clone() };
        let way = self.random.below(WAYS as u64) as usize;
        let batch = self.batch(bytes, way);
        (Batch { state: generate::unsound(self.random, reason), ..batch }, Some(reason))
    }
}

/// A sound state and a room: any, fresh ones, ones that hold some sizes and not others, and a state at EL1 in which accesses
/// trap to EL2.
fn lent(random: &mut Random) -> Lent {
    match random.below(8) {
        0 => Sequence::fresh(generate::room(random)),
        1 => Sequence::fresh(random.one_of(&ROOMS)),
        2 => {
            let mut lent = generate::sound(random);
            lent.state[0] = 1;
            lent.state[3] = 0x131;
            lent
        }
        _ => generate::sound(random),
    }
}

/// Operations, made as they go on what is lent: before a reset too, and now and then a reset that the room has no place for.
fn run(random: &mut Random, mut lent: Lent) -> Recording {
    let length = if random.percent(1) { 50 + random.below(100) } else { 2 + random.below(7) };
    let resets = random.one_of(&[0, 0, 10, 30]);
    let fresh = lent.state[1] == 0;
    let early = if fresh { random.below(4) } else { 0 };
    let flavour = random.one_of(&FLAVOURS);
    let mut other = random.clone();
    let mut generator = if fresh { Generator::new(random, flavour) } else { Generator::midway(random, flavour) };
    let mut recording = Recording::default();
    while recording.calls.len() < (early + length) as usize {
        let call = match recording.calls.len() as u64 {
            place if place < early => Generator::midway(&mut other, flavour).call(&lent.state),
            _ if other.percent(resets) => Call([0, 0, other.one_of(&SIZES), other.below(2), 0, 0]),
            _ => generator.call(&lent.state),
        };
        if own_fields(call.code()).is_some() {
            Document01.step(&mut lent.state, &mut lent.room, call.0);
            recording.push(call);
        }
    }
    recording
}

/// How many numbers are lent for the answers of so many operations in so many bytes, in the way of this number: none, two
/// and one too few, exactly enough, one more, or more, often around what is enough for any run of so many bytes.
fn answers(random: &mut Random, way: usize, operations: usize, length: usize) -> usize {
    let needed = 2 * operations;
    let more = needed + 2 + random.below(8) as usize;
    match way {
        0 => 0,
        1 => needed.saturating_sub(2),
        2 => needed.saturating_sub(1),
        3 => needed,
        4 => needed + 1,
        _ => random.one_of(&[more, more, length.max(needed + 2), brb::batch_numbers(length).max(needed + 2)]),
    }
}
