use crate::engine::Lent;
use crate::recording::{hex, with_smaller_byte};
use crate::shrink::{smaller, with_part_dropped, with_smaller_number};
use crate::{Case, Engine};
use std::fmt;

/// One operation of a recording, read into a lent place and stepped on any state and room.
#[derive(Clone, Debug, PartialEq, Eq)]
pub struct Recorded {
    pub state: Vec<u64>,
    pub room: Vec<u64>,
    /// How many numbers the place has.
    pub place: usize,
    pub bytes: Vec<u8>,
    pub at: usize,
}

/// What both engines answered.
#[derive(Clone, Debug, PartialEq, Eq)]
pub struct Answered {
    pub read: (u64, u64),
    pub place: Vec<u64>,
    pub step: (u64, u64),
    pub next: u64,
    pub lent: Lent,
}

impl Recorded {
    /// What both engines answer and leave, or how they disagree.
    pub fn compare(&self, engines: [&dyn Engine; 2]) -> Result<Answered, String> {
        let (read, place) = self.compare_reading(engines)?;
        let (step, next, lent) = self.compare_step(engines)?;
        Ok(Answered { read, place, step, next, lent })
    }

    fn compare_reading(&self, engines: [&dyn Engine; 2]) -> Result<((u64, u64), Vec<u64>), String> {
        let names = engines.map(|engine| engine.name());
        let [left, right] = engines.map(|engine| {
            let mut place = self.lent_place();
            (engine.recording_read(&self.bytes, self.at, &mut place), place)
        });
        if left.0 != right.0 {
            return Err(format!("read: {} {:?}, {} {:?}", names[0], left.0, names[1], right.0));
        }
        if left.1 != right.1 {
            return Err(format!("place: {} {:?}, {} {:?}", names[0], left.1, names[1], right.1));
        }
        Ok(left)
    }

    /// The place before the reading: no number of it is 0.
    pub fn lent_place(&self) -> Vec<u64> {
        (0..self.place as u64).map(|number| 0xF1AC_E000 + number).collect()
    }

    fn compare_step(&self, engines: [&dyn Engine; 2]) -> Result<((u64, u64), u64, Lent), String> {
        let [left, right] = engines.map(|engine| {
            let mut lent = Lent { state: self.state.clone(), room: self.room.clone() };
            let (answer, next) = engine.step_recorded(&mut lent.state, &mut lent.room, &self.bytes, self.at);
            (answer, next, lent)
        });
        if left.1 != right.1 {
            let [l, r] = engines.map(|engine| engine.name());
            return Err(format!(
                "stepped: next: {l} {} (answer {}), {r} {} (answer {})",
                left.1, left.0 .0, right.1, right.0 .0
            ));
        }
        match Lent::difference(engines, [&left.2, &right.2], [left.0, right.0]) {
            None => Ok(left),
            Some(difference) => Err(format!("stepped: {difference}")),
        }
    }
}

impl Case for Recorded {
    fn simpler(&self) -> Box<dyn Iterator<Item = Self> + '_> {
        let from_here = (self.at > 0).then(|| self.bytes.get(self.at..)).flatten();
        let from_here = from_here.map(|rest| Recorded { bytes: rest.to_vec(), at: 0, ..self.clone() });
        let shorter = with_part_dropped(&self.bytes).map(|bytes| Recorded { bytes, ..self.clone() });
        let earlier = smaller(self.at as u64).map(|at| Recorded { at: at as usize, ..self.clone() });
        let narrower = [0, 24, 48, 96, 192].into_iter().filter(|&room| room < self.room.len());
        let narrower = narrower.map(|room| Recorded { room: self.room[..room].to_vec(), ..self.clone() });
        let emptied = self.room.iter().any(|&number| number != 0);
        let emptied = emptied.then(|| Recorded { room: vec![0; self.room.len()], ..self.clone() });
        let fresh = vec![0; model::State::NUMBERS];
        let fresh = (self.state != fresh).then(|| Recorded { state: fresh, ..self.clone() });
        let plainer = with_smaller_byte(&self.bytes).map(|bytes| Recorded { bytes, ..self.clone() });
        let states = with_smaller_number(&self.state).map(|state| Recorded { state, ..self.clone() });
        let placed = (self.place != 6).then(|| Recorded { place: 6, ..self.clone() });
        let lent = from_here.into_iter().chain(fresh).chain(emptied).chain(placed).chain(narrower);
        Box::new(lent.chain(shorter).chain(earlier).chain(plainer).chain(states))
    }
}

impl fmt::Display for Recorded {
    fn fmt(&self, f: &mut fmt::Formatter<'_>) -> fmt::Result {
        let state: Vec<String> = self.state.iter().map(u64::to_string).collect();
        let (place, room) = (self.place, self.room.len());
        write!(f, "{}  (at {}; place of {place} numbers; state {}; ", hex(&self.bytes), self.at, state.join(" "))?;
        write!(f, "room of {room} numbers)")
    }
}
