use crate::batch::{Batch, Left};
use crate::engine::Lent;
use crate::Engine;

/// What single calls make of a run, one after another from its first byte on.
#[derive(Clone, Debug, PartialEq, Eq)]
pub struct Singles {
    /// Whether the state is sound: nothing is read otherwise.
    pub sound: bool,
    /// What each operation was answered.
    pub answers: Vec<(u64, u64)>,
    /// Where each operation starts.
    pub starts: Vec<usize>,
    /// The place of record 0 before each operation and after it.
    pub newest: Vec<[u64; 2]>,
    lent: Lent,
}

impl Singles {
    pub fn of<E: Engine + ?Sized>(engine: &E, batch: &Batch) -> Singles {
        let Batch { state, room, bytes, .. } = batch;
        let mut lent = Lent { state: state.clone(), room: room.clone() };
        // At the end of the bytes a call reads nothing, and judges the state all the same.
        let ((at_the_end, _), _) = engine.step_recorded(&mut lent.state, &mut lent.room, bytes, bytes.len());
        let sound = at_the_end != 7;
        let (mut answers, mut starts, mut newest, mut at) = (Vec::new(), Vec::new(), Vec::new(), 0);
        while sound && at < bytes.len() {
            let before = lent.state[brb::STATE_START];
            let (answer, next) = engine.step_recorded(&mut lent.state, &mut lent.room, bytes, at);
            answers.push(answer);
            starts.push(at);
            newest.push([before, lent.state[brb::STATE_START]]);
            if matches!(answer.0, 1 | 2) {
                break;
            }
            at = next as usize;
        }
        Singles { sound, answers, starts, newest, lent }
    }

    /// What a batch has to answer and to leave, if it is these calls.
    pub fn left(&self, batch: &Batch) -> Left {
        let refusal = match self.sound {
            false => 7,
            true if batch.answers < 2 * self.answers.len() => 6,
            true => 0,
        };
        let mut answers = batch.answers_before();
        if refusal != 0 {
            return Left { answer: (refusal, 0), lent: batch.lent(), answers };
        }
        for (operation, &(number, value)) in self.answers.iter().enumerate() {
            answers[2 * operation] = number;
            answers[2 * operation + 1] = value;
        }
        Left { answer: (0, self.answers.len() as u64), lent: self.lent.clone(), answers }
    }

    /// The number of the operation that could not be read, if there is one: it is the last.
    pub fn unreadable(&self) -> Option<usize> {
        let last = self.answers.len().checked_sub(1)?;
        matches!(self.answers[last].0, 1 | 2).then_some(last)
    }

    /// Where the first part of a run ends that has so many operations, or all that can be read: how many it has then, and
    /// the byte.
    pub fn part(&self, operations: usize, length: usize) -> (usize, usize) {
        let operations = operations.min(self.unreadable().unwrap_or(self.answers.len()));
        (operations, self.starts.get(operations).copied().unwrap_or(length))
    }
}
