use crate::batch::{Batching, Left, Singles};
use crate::engine::Lent;
use crate::recording::{hex, with_smaller_byte};
use crate::shrink::{smaller, with_part_dropped, with_smaller_number};
use crate::Case;
use model::{Batches, Document01};
use std::fmt;

/// How many numbers stand behind those that are lent for answers, to see whether they are written.
const BEHIND: usize = 2;

/// A run of recorded operations in one call, on any state and room.
#[derive(Clone, Debug, PartialEq, Eq)]
pub struct Batch {
    pub state: Vec<u64>,
    pub room: Vec<u64>,
    pub bytes: Vec<u8>,
    /// How many numbers are lent for answers.
    pub answers: usize,
    /// How many operations the first of two parts has, as far as there are so many.
    pub first_part: usize,
}

impl Batch {
    pub fn lent(&self) -> Lent {
        Lent { state: self.state.clone(), room: self.room.clone() }
    }

    /// The answers before the call, and some numbers behind them that are not lent: no two of them are alike, and none is a
    /// number or a value that is likely to be answered.
    pub fn answers_before(&self) -> Vec<u64> {
        (0..(self.answers + BEHIND) as u64).map(|number| 0xA5_3E50_0000 + number).collect()
    }

    /// What both engines answer, and what the single calls of the first make of the run; or how something disagrees: the
    /// engines, the first's batch and its single calls, or its batch and its two batches of the parts.
    pub fn compare(&self, engines: [&dyn Batching; 2]) -> Result<((u64, u64), Singles), String> {
        let [left, right] = engines.map(|engine| self.left_by(engine));
        same(engines.map(|engine| engine.name()), [&left, &right])?;
        let singles = Singles::of(engines[0], self);
        same(["one call", "single calls"], [&left, &singles.left(self)])?;
        if left.answer.0 == 0 {
            let parts = self.left_by_parts(engines[0], &singles);
            same(["one call", "two calls of its parts"], [&left, &parts])?;
        }
        Ok((left.answer, singles))
    }

    fn left_by(&self, engine: &dyn Batching) -> Left {
        let (mut lent, mut answers) = (self.lent(), self.answers_before());
        let answer = engine.batch(&mut lent.state, &mut lent.room, &self.bytes, &mut answers[..self.answers]);
        Left { answer, lent, answers }
    }

    /// Two batches, one after the other on the same lent numbers: the second's answers follow the first's.
    fn left_by_parts(&self, engine: &dyn Batching, singles: &Singles) -> Left {
        let (operations, byte) = singles.part(self.first_part, self.bytes.len());
        let (first, second) = self.bytes.split_at(byte);
        let (mut lent, mut answers) = (self.lent(), self.answers_before());
        let lent_answers = &mut answers[..self.answers];
        let one = engine.batch(&mut lent.state, &mut lent.room, first, lent_answers);
        if one != (0, operations as u64) {
            return Left { answer: one, lent, answers };
        }
        let other = engine.batch(&mut lent.state, &mut lent.room, second, &mut lent_answers[2 * operations..]);
        Left { answer: (other.0, one.1 + other.1), lent, answers }
    }

    /// The same with other bytes, and with as many numbers fewer for answers as they have answers fewer.
    fn with_answers_as_before(&self, bytes: Vec<u8>) -> Batch {
        let needed = |bytes: &[u8]| 2 * Document01.answered_operations(bytes);
        let fewer = needed(&self.bytes).saturating_sub(needed(&bytes));
        Batch { answers: self.answers.saturating_sub(fewer), bytes, ..self.clone() }
    }
}

/// Nothing, or the first difference of what was left.
fn same(names: [&str; 2], left: [&Left; 2]) -> Result<(), String> {
    Left::difference(names, left).map_or(Ok(()), Err)
}

impl Case for Batch {
    fn simpler(&self) -> Box<dyn Iterator<Item = Self> + '_> {
        let with = |bytes: Vec<u8>| [self.with_answers_as_before(bytes.clone()), Batch { bytes, ..self.clone() }];
        let fresh = vec![0; model::State::NUMBERS];
        let fresh = (self.state != fresh).then(|| Batch { state: fresh, ..self.clone() });
        let emptied = self.room.iter().any(|&number| number != 0);
        let emptied = emptied.then(|| Batch { room: vec![0; self.room.len()], ..self.clone() });
        let narrower = [0, 24, 48, 96, 192].into_iter().filter(|&room| room < self.room.len());
        let narrower = narrower.map(|room| Batch { room: self.room[..room].to_vec(), ..self.clone() });
        let shorter = with_part_dropped(&self.bytes).flat_map(with);
        let plainer = with_smaller_byte(&self.bytes).flat_map(with);
        let fewer = smaller(self.answers as u64).map(|answers| Batch { answers: answers as usize, ..self.clone() });
        let parts = smaller(self.first_part as u64).map(|part| Batch { first_part: part as usize, ..self.clone() });
        let states = with_smaller_number(&self.state).map(|state| Batch { state, ..self.clone() });
        let lent = fresh.into_iter().chain(emptied).chain(narrower);
        Box::new(lent.chain(shorter).chain(fewer).chain(parts).chain(plainer).chain(states))
    }
}

impl fmt::Display for Batch {
    fn fmt(&self, f: &mut fmt::Formatter<'_>) -> fmt::Result {
        let state: Vec<String> = self.state.iter().map(u64::to_string).collect();
        let (answers, first_part) = (self.answers, self.first_part);
        write!(f, "{}  (answers of {answers} numbers; first part of {first_part}; ", hex(&self.bytes))?;
        write!(f, "state {}; room of {} numbers)", state.join(" "), self.room.len())
    }
}
