//! The records as a plain list, newest first, which each recorded event moves up by one: what a buffer of records is without
//! places. After every operation the list must be what the room shows by the start, and what the bank view shows; and the
//! numbers that were lent must have changed as they may ([`starts::check_written`]). No round buffer of the model's is asked:
//! only whether an event becomes a record, and which.

use crate::generate::Flavour;
use crate::watch::{self, Step, Watch};
use crate::{starts, Call, Engine, Random, Sequence};
use model::{Asked, Document01, Part, Record, Rules};
use std::ops::AddAssign;

/// After so many operations, and at the end, every register of every bank is looked at.
const INTERVAL: usize = 64;

/// The list, as long as the buffer's size; empty before a reset.
#[derive(Default)]
struct Shifted(Vec<Record>);

/// What is counted: what became of the list, and what the bank view showed that is not 0.
pub const SEEN: [&str; 8] = [
    "records",
    "records that the oldest made room for",
    "lists cleared by a reset",
    "lists cleared by BRB IALL",
    "looked at, not gone round",
    "looked at, gone round",
    "looked at, no record yet",
    "looked at, past the size",
];

/// How often each of [`SEEN`] was met.
#[derive(Clone, Copy, Debug, Default)]
pub struct Seen(pub [u64; SEEN.len()]);

impl AddAssign for Seen {
    fn add_assign(&mut self, more: Seen) {
        self.0.iter_mut().zip(more.0).for_each(|(met, more)| *met += more);
    }
}

impl Watch for Shifted {
    type Seen = Seen;
    const FLAVOURS: &'static [Flavour] = &[
        Flavour::Recording,
        Flavour::Roaming,
        Flavour::Accessing,
        Flavour::Halting,
        Flavour::Rounding,
        Flavour::Rounding,
        Flavour::Careless,
    ];
    const ROOM: usize = 200;

    fn look(&mut self, step: &Step) -> Result<Seen, String> {
        starts::check_written(step.before, step.after, step.call, step.answer.0)?;
        let mut seen = Seen::default();
        self.note(step, &mut seen);
        let shown: Vec<Record> = step.after.records().collect();
        if shown != self.0 {
            return Err(format!("by {} the room shows {shown:x?}, and the list has {:x?}", step.call, self.0));
        }
        self.check_banks(step, &mut seen)?;
        Ok(seen)
    }
}

impl Shifted {
    /// What an answered operation makes of the list.
    fn note(&mut self, step: &Step, seen: &mut Seen) {
        let filled = self.0.iter().any(|record| record[0] != 0);
        match (step.call.code(), step.answer.0) {
            (0, 0) => {
                self.0 = vec![[0; 3]; step.call.0[2] as usize];
                seen.0[2] += u64::from(filled);
            }
            (7, 0) => {
                self.0.fill([0; 3]);
                seen.0[3] += u64::from(filled);
            }
            (_, 0) if step.call.is_event() => {
                let record = recorded(&step.before.state, step.before.room.len(), step.call);
                record.into_iter().for_each(|record| self.shift(record, seen));
            }
            _ => {}
        }
    }

    fn shift(&mut self, newest: Record, seen: &mut Seen) {
        let oldest = self.0.pop().unwrap_or_default();
        self.0.insert(0, newest);
        seen.0[0] += 1;
        seen.0[1] += u64::from(oldest[0] != 0);
    }

    /// The bank view of the newest record, the oldest and one between them, and from time to time of all registers.
    fn check_banks(&self, step: &Step, seen: &mut Seen) -> Result<(), String> {
        let size = self.0.len();
        match size {
            0 => Ok(()),
            _ if step.place % INTERVAL == 0 || step.is_last => {
                (0..128).try_for_each(|record| self.check_bank(step, record, seen))
            }
            _ => {
                [0, step.place % size, size - 1].into_iter().try_for_each(|record| self.check_bank(step, record, seen))
            }
        }
    }

    /// The bank view of a record, which may lie past the size.
    fn check_bank(&self, step: &Step, record: usize, seen: &mut Seen) -> Result<(), String> {
        let start = step.after.state[brb::STATE_START];
        let size = self.0.len() as u64;
        let asked = Asked { size, start, bank: record as u64 / 32, m: record as u64 % 32 };
        let listed = self.0.get(record);
        for part in Part::ALL {
            let right = (0, listed.map_or(0, |record| record[part as usize]));
            let shown = step.engine.bank(&step.after.room, asked, part);
            if shown != right {
                return Err(format!("{part:?} of {asked} shows {shown:x?}, and the list has {right:x?}"));
            }
        }
        let class = match listed {
            None => 7,
            Some([0, ..]) => 6,
            Some(_) => 4 + usize::from(start + record as u64 >= size),
        };
        seen.0[class] += 1;
        Ok(())
    }
}

/// The record that an accepted event becomes, by the state before it.
fn recorded(before: &[u64], room: usize, call: Call) -> Option<Record> {
    let (mut state, operation) = Document01.accept(before, room, call.0).ok()?;
    Document01.pass(&mut state, call.cycles());
    let event = operation.event(Document01.begins(&state))?;
    Document01.recorded(&state, &event)
}

/// Random sequences, until at least so many operations were run: what was seen, or a shrunk sequence whose records are not the
/// list's, and how.
pub fn explore(engine: &dyn Engine, random: &mut Random, operations: u64) -> Result<Seen, (Sequence, String)> {
    watch::explore::<Shifted>(engine, random, operations)
}
