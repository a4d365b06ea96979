//! A state and a room together.

use crate::{Answer, Operation, Recorded, LARGEST_ROOM, STATE_NUMBERS, STATE_SIZE, STATE_START};

/// A state and a room, owned (the default) or borrowed.
///
/// ```
/// use brb::{Operation, Recorder, STATE_NUMBERS};
///
/// // Borrowed: the host keeps the numbers where it likes.
/// let (mut state, mut room) = ([0; STATE_NUMBERS], [0; 24]);
/// let mut recorder = Recorder::over(&mut state[..], &mut room[..]);
/// assert!(!recorder.step(Operation::reset(8, true)).is_refusal());
/// assert_eq!(recorder.step(Operation::reset(16, true)).number, 6);
/// assert_eq!(state[brb::STATE_SIZE], 8);
/// ```
#[derive(Clone, Debug, PartialEq, Eq)]
pub struct Recorder<S = [u64; STATE_NUMBERS], R = Vec<u64>> {
    state: S,
    room: R,
}

impl Recorder {
    /// A fresh state, in which only a reset is accepted, and room for 64 records.
    pub fn new() -> Recorder {
        Recorder { state: [0; STATE_NUMBERS], room: vec![0; LARGEST_ROOM] }
    }
}

impl Default for Recorder {
    fn default() -> Recorder {
        Recorder::new()
    }
}

impl<S, R> Recorder<S, R>
where
    S: AsRef<[u64]> + AsMut<[u64]>,
    R: AsRef<[u64]> + AsMut<[u64]>,
{
    /// A recorder over a state and a room as an earlier call left them, or over a fresh state of zeros.
    pub fn over(state: S, room: R) -> Recorder<S, R> {
        Recorder { state, room }
    }

    /// One operation.
    pub fn step(&mut self, operation: Operation) -> Answer {
        crate::step(self.state.as_mut(), self.room.as_mut(), operation)
    }

    /// A read of a register.
    pub fn read(&mut self, cycles: u64, register: u64) -> Answer {
        crate::read(self.state.as_mut(), self.room.as_mut(), cycles, register)
    }

    /// The operation at a position of a recording.
    ///
    /// ```
    /// use brb::{Outcome, Recorder};
    ///
    /// let (bytes, mut at) = ([0, 0, 8, 0, 5, 0, 0], 0);
    /// let mut recorder = Recorder::new();
    /// while at < bytes.len() {
    ///     let recorded = recorder.step_recorded(&bytes, at);
    ///     assert_eq!(recorded.answer().outcome(), Outcome::Done(if at == 0 { 0 } else { 0x5008 }));
    ///     if recorded.stops() {
    ///         break;
    ///     }
    ///     at = recorded.next as usize;
    /// }
    /// assert_eq!(at, bytes.len());
    /// ```
    pub fn step_recorded(&mut self, bytes: &[u8], at: usize) -> Recorded {
        crate::step_recorded(self.state.as_mut(), self.room.as_mut(), bytes, at)
    }

    /// A run of recorded operations in one call, with the answers of each into lent numbers: [`batch`](crate::batch()).
    ///
    /// ```
    /// use brb::{Outcome, Recorder};
    ///
    /// let bytes = [0, 0, 8, 0, 5, 0, 0];
    /// let mut answers = [0; brb::batch_numbers(7)];
    /// let mut recorder = Recorder::new();
    /// assert_eq!(recorder.batch(&bytes, &mut answers).outcome(), Outcome::Done(2));
    /// assert_eq!(answers[..2 * brb::ANSWER_NUMBERS], [0, 0, 0, 0x5008]);
    /// ```
    pub fn batch(&mut self, bytes: &[u8], answers: &mut [u64]) -> Answer {
        crate::batch(self.state.as_mut(), self.room.as_mut(), bytes, answers)
    }

    /// The state's numbers.
    pub fn state(&self) -> &[u64] {
        self.state.as_ref()
    }

    /// The room's numbers, those past the records too. Record 0 stands where the state's [`STATE_START`] says.
    pub fn room(&self) -> &[u64] {
        self.room.as_ref()
    }

    /// The records, newest first, as BRBINF, BRBSRC and BRBTGT; none before the first reset.
    ///
    /// ```
    /// use brb::{Operation, Recorder};
    ///
    /// let mut recorder = Recorder::new();
    /// recorder.step(Operation::reset(8, true));
    /// assert_eq!(recorder.records().collect::<Vec<_>>(), [[0; 3]; 8]);
    /// ```
    pub fn records(&self) -> impl Iterator<Item = [u64; 3]> + '_ {
        let number = |place: usize| self.state().get(place).map_or(0, |&n| usize::try_from(n).unwrap_or(usize::MAX));
        let size = number(STATE_SIZE).min(self.room().len() / 3);
        let (before, from) = self.room()[..3 * size].split_at(3 * number(STATE_START).min(size));
        from.chunks_exact(3).chain(before.chunks_exact(3)).map(|record| [record[0], record[1], record[2]])
    }

    /// The state and the room.
    pub fn into_parts(self) -> (S, R) {
        (self.state, self.room)
    }
}
