use crate::engine::Lent;
use crate::shrink::{smaller, with_smaller_number};
use crate::{starts, Call, Case, Engine};
use std::fmt;

/// One operation on any state and room. A read is done by the function for reads as well.
#[derive(Clone, Debug, PartialEq, Eq)]
pub struct Single {
    pub state: Vec<u64>,
    pub room: Vec<u64>,
    pub call: Call,
}

impl Single {
    fn lent(&self) -> Lent {
        Lent { state: self.state.clone(), room: self.room.clone() }
    }

    /// What both engines answer and leave, or how they disagree, or what the first may not have written.
    pub fn compare(&self, engines: [&dyn Engine; 2]) -> Result<((u64, u64), Lent), String> {
        let mut lent = [self.lent(), self.lent()];
        let mut answers = [(0, 0); 2];
        for (side, engine) in engines.iter().enumerate() {
            answers[side] = engine.step(&mut lent[side].state, &mut lent[side].room, self.call);
        }
        if let Some(difference) = Lent::difference(engines, [&lent[0], &lent[1]], answers) {
            return Err(difference);
        }
        if self.call.code() == 5 {
            let mut read = self.lent();
            let [_, cycles, register, ..] = self.call.0;
            let answer = engines[0].read(&mut read.state, &mut read.room, cycles, register);
            if let Some(difference) = Lent::difference(engines, [&read, &lent[1]], [answer, answers[1]]) {
                return Err(format!("by the function for reads, {difference}"));
            }
        }
        let [left, _] = lent;
        starts::check_written(&self.lent(), &left, self.call, answers[0].0)?;
        Ok((answers[0], left))
    }
}

impl Case for Single {
    fn simpler(&self) -> Box<dyn Iterator<Item = Self> + '_> {
        let narrower = [0, 24, 48, 96, 192].into_iter().filter(|&room| room < self.room.len());
        let narrower = narrower.map(|room| Single { room: self.room[..room].to_vec(), ..self.clone() });
        let lengths = model::State::NUMBERS..self.state.len();
        let shorter = lengths.map(|length| Single { state: self.state[..length].to_vec(), ..self.clone() });
        let emptied = self.room.iter().any(|&number| number != 0);
        let emptied = emptied.then(|| Single { room: vec![0; self.room.len()], ..self.clone() });
        let plainer = (0..6).rev().flat_map(move |field| {
            smaller(self.call.0[field]).map(move |number| {
                let mut changed = self.clone();
                changed.call.0[field] = number;
                changed
            })
        });
        let states = with_smaller_number(&self.state).map(|state| Single { state, ..self.clone() });
        let rooms = with_smaller_number(&self.room).map(|room| Single { room, ..self.clone() });
        Box::new(narrower.chain(shorter).chain(emptied).chain(plainer).chain(states).chain(rooms))
    }
}

impl fmt::Display for Single {
    fn fmt(&self, f: &mut fmt::Formatter<'_>) -> fmt::Result {
        let state: Vec<String> = self.state.iter().map(u64::to_string).collect();
        write!(f, "{}  (state {}; room of {} numbers", self.call, state.join(" "), self.room.len())?;
        let set = self.room.iter().enumerate().filter(|(_, &number)| number != 0);
        for (nth, (place, number)) in set.enumerate() {
            write!(f, "{} {place}: {number}", if nth == 0 { ", not 0 at" } else { "," })?;
        }
        write!(f, ")")
    }
}
