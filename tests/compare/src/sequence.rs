use crate::engine::Lent;
use crate::generate::SIZES;
use crate::shrink::{smaller, with_part_dropped};
use crate::{Call, Case, Engine};
use std::fmt;

/// How many numbers are lent past those of a state.
const STATE_MARGIN: usize = 3;

/// Operations from a fresh state, in a room of so many numbers.
#[derive(Clone, Debug, PartialEq, Eq)]
pub struct Sequence {
    pub room: usize,
    pub calls: Vec<Call>,
}

impl Sequence {
    /// A fresh state and a room that holds other numbers than 0, so that a number that must be written, or must not be,
    /// is told from one that was.
    pub fn fresh(room: usize) -> Lent {
        let mut state = vec![0; model::State::NUMBERS + STATE_MARGIN];
        state[model::State::NUMBERS..].fill(0x5AFE);
        Lent { state, room: (0..room as u64).map(|place| 0xF0_0000 + place).collect() }
    }

    /// The place of the first operation on which two engines disagree, and how.
    pub fn disagreement(&self, engines: [&dyn Engine; 2]) -> Option<(usize, String)> {
        let mut bed = Bed::new(engines, self.room);
        self.calls.iter().enumerate().find_map(|(place, &call)| Some((place, bed.step(call).err()?)))
    }

    /// The same without the operation before `place`, whose cycles pass with the one that stands there.
    fn merged(&self, place: usize) -> Sequence {
        let mut merged = self.clone();
        let dropped = merged.calls.remove(place - 1);
        let cycles = &mut merged.calls[place - 1].0[1];
        *cycles = cycles.saturating_add(dropped.cycles());
        merged
    }

    /// The same without as many operations as a buffer has places: where all of them are records, each place is as it was.
    fn without_a_round(&self) -> impl Iterator<Item = Sequence> + '_ {
        SIZES.into_iter().map(|size| size as usize).flat_map(move |size| {
            let firsts = 0..(self.calls.len() + 1).saturating_sub(size);
            firsts.map(move |first| {
                let calls = [&self.calls[..first], &self.calls[first + size..]].concat();
                Sequence { calls, ..*self }
            })
        })
    }

    /// The register of a record that the last operation reads.
    fn last_read(&self) -> Option<u64> {
        match self.calls.last()?.0 {
            [5, _, register @ 32..=127, ..] => Some(register),
            _ => None,
        }
    }

    /// The same, with another register that the last operation reads.
    fn reading(mut self, register: u64) -> Sequence {
        self.calls.last_mut().expect("an operation that reads").0[2] = register;
        self
    }

    /// The same without one operation, where the last one reads a record: that of one number less, or of one more. Without a
    /// record each older one has one number less, and the start is one place higher.
    fn renumbered(&self) -> impl Iterator<Item = Sequence> + '_ {
        let places = 0..self.calls.len().saturating_sub(1);
        self.last_read().into_iter().flat_map(move |register| {
            places.clone().flat_map(move |place| {
                let near = [register - 1, register + 1].into_iter().filter(move |near| near / 32 == register / 32);
                near.map(move |near| {
                    let mut shorter = self.clone();
                    shorter.calls.remove(place);
                    shorter.reading(near)
                })
            })
        })
    }

    /// The same with a reset to a smaller size, where the last one reads a record: any that this size has in the first bank.
    fn resized(&self) -> impl Iterator<Item = Sequence> + '_ {
        let resets = self.calls.iter().enumerate().filter(|(_, call)| call.code() == 0);
        self.last_read().into_iter().flat_map(move |register| {
            resets.clone().flat_map(move |(place, call)| {
                let sizes = SIZES.into_iter().filter(|&size| size < call.0[2]);
                sizes.flat_map(move |size| (0..size.min(32)).map(move |m| (size, m))).map(move |(size, m)| {
                    let mut smaller = self.clone();
                    smaller.calls[place].0[2] = size;
                    smaller.reading(register / 32 * 32 + m)
                })
            })
        })
    }
}

/// Two engines beside each other, from the same fresh state.
pub struct Bed<'e> {
    engines: [&'e dyn Engine; 2],
    lent: [Lent; 2],
}

impl<'e> Bed<'e> {
    pub fn new(engines: [&'e dyn Engine; 2], room: usize) -> Bed<'e> {
        let lent = Sequence::fresh(room);
        Bed { engines, lent: [lent.clone(), lent] }
    }

    /// What the first engine works on.
    pub fn lent(&self) -> &Lent {
        &self.lent[0]
    }

    /// One operation by both: their answer, or how they disagree.
    pub fn step(&mut self, call: Call) -> Result<(u64, u64), String> {
        let [left, right] = &mut self.lent;
        let answers = [
            self.engines[0].step(&mut left.state, &mut left.room, call),
            self.engines[1].step(&mut right.state, &mut right.room, call),
        ];
        match Lent::difference(self.engines, [left, right], answers) {
            None => Ok(answers[0]),
            Some(difference) => Err(difference),
        }
    }
}

impl Case for Sequence {
    fn simpler(&self) -> Box<dyn Iterator<Item = Self> + '_> {
        let shorter = with_part_dropped(&self.calls).map(|calls| Sequence { calls, ..*self });
        let merged = (1..self.calls.len()).map(|place| self.merged(place));
        let narrower = [0, 24, 48, 96, 192].into_iter().filter(|&room| room < self.room);
        let narrower = narrower.map(|room| Sequence { room, calls: self.calls.clone() });
        let plainer = self.calls.iter().enumerate().flat_map(move |(place, call)| {
            // The fields from the last to the first: those beyond the operation's own go at once.
            (0..6).rev().flat_map(move |field| {
                smaller(call.0[field]).map(move |number| {
                    let mut changed = self.clone();
                    changed.calls[place].0[field] = number;
                    changed
                })
            })
        });
        let shorter = shorter.chain(merged).chain(self.without_a_round()).chain(self.renumbered());
        Box::new(shorter.chain(self.resized()).chain(narrower).chain(plainer))
    }
}

impl fmt::Display for Sequence {
    fn fmt(&self, f: &mut fmt::Formatter<'_>) -> fmt::Result {
        let written: Vec<String> = self.calls.iter().map(Call::to_string).collect();
        write!(f, "{}  (room of {} numbers)", written.join(" / "), self.room)
    }
}
