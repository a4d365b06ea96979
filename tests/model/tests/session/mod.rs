//! A state and a room, and operations in document 01's written form done to them.

use model::{Answer, Document01, Refusal, Rules, State};

pub struct Session {
    pub state: [u64; State::NUMBERS],
    pub room: Vec<u64>,
}

impl Session {
    pub fn fresh(room: usize) -> Session {
        Session { state: [0; State::NUMBERS], room: vec![7; room] }
    }

    /// Operations in document 01's written form; the answer to the last.
    pub fn run(&mut self, operations: &str) -> Answer {
        let mut answer = Answer::Done;
        for operation in operations.split('/') {
            let mut numbers = [0; 6];
            for (number, text) in numbers.iter_mut().zip(operation.split_whitespace()) {
                *number = text.parse().unwrap();
            }
            answer = Document01.step(&mut self.state, &mut self.room, numbers);
        }
        answer
    }

    pub fn refused(&mut self, operations: &str, refusal: Refusal) {
        let before = (self.state, self.room.clone());
        assert_eq!(self.run(operations), Answer::Refused(refusal), "{operations}");
        assert_eq!((self.state, self.room.clone()), before, "{operations}: a refusal leaves all untouched");
    }

    /// What stands at a place.
    pub fn at(&self, place: usize) -> &[u64] {
        &self.room[3 * place..3 * place + 3]
    }

    /// Record 0.
    pub fn newest(&self) -> &[u64] {
        self.at(self.state[11] as usize)
    }

    /// Record 1, where it stands at the place above the newest one's.
    #[allow(dead_code)] // one of two tests asks for it
    pub fn next(&self) -> &[u64] {
        self.at(self.state[11] as usize + 1)
    }
}

/// Recording and counting on at EL0 to EL2, then a return to EL1, which becomes no record since EL3 is not recorded.
pub const AT_EL1: &str = "0 0 8 0 / 4 0 49 / 6 0 1 12582939 / 6 0 2 12582939 / 6 0 3 65536 / 3 0 1 0 1 2";
