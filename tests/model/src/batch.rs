//! Document 02, Two, and `docs/MANUAL.md`, "Batches": a run of recorded operations in one call.

use crate::{Answer, Document01, Recordings, Refusal};

/// The rules of a batch, one method a rule. A test that wants to know whether an error would be found overrides one.
pub trait Batches: Recordings {
    /// A run on lent numbers, with a lent place for its answers: how many operations were answered, or what refuses all of
    /// it. A refused batch does nothing at all.
    fn batch(&self, state: &mut [u64], room: &mut [u64], bytes: &[u8], answers: &mut [u64]) -> Result<usize, Refusal> {
        match self.batch_refusal(state, bytes, answers.len()) {
            Some(refusal) => Err(refusal),
            None => Ok(self.answer_each(state, room, bytes, answers)),
        }
    }

    /// What refuses a batch that has so many numbers for its answers: the state is judged first, the answers behind it.
    fn batch_refusal(&self, state: &[u64], bytes: &[u8], answers: usize) -> Option<Refusal> {
        if self.sound(state).is_none() {
            Some(Refusal::NotSound)
        } else if self.answers_too_short(bytes, answers) {
            Some(Refusal::RoomTooShort)
        } else {
            None
        }
    }

    /// 6: some operation that is to have an answer has no two numbers for it.
    fn answers_too_short(&self, bytes: &[u8], answers: usize) -> bool {
        answers < 2 * self.answered_operations(bytes)
    }

    /// How many operations have an answer: those that are read one after another from the first byte on, and behind them
    /// the one that cannot be read, if there is one (`docs/DECISIONS.md`, point 35). A run of no bytes has none (point 36).
    fn answered_operations(&self, bytes: &[u8]) -> usize {
        let (mut at, mut operations) = (0, 0);
        while at < bytes.len() {
            operations += 1;
            match self.read_operation(bytes, at) {
                Ok((_, next)) => at = next,
                Err(_) => break,
            }
        }
        operations
    }

    /// The single calls, one after another to the end of the run or of the batch. Answers how many there were.
    fn answer_each(&self, state: &mut [u64], room: &mut [u64], bytes: &[u8], answers: &mut [u64]) -> usize {
        let (mut at, mut answered) = (0, 0);
        while at < bytes.len() {
            let step = self.step_recorded(state, room, bytes, at);
            self.put_answer(answers, answered, step.answer);
            answered += 1;
            if self.ends_batch(step.answer) {
                break;
            }
            at = step.next;
        }
        answered
    }

    /// An answer has two places, from the first of the lent numbers on: its number, and behind it its value.
    fn put_answer(&self, answers: &mut [u64], operation: usize, answer: Answer) {
        answers[2 * operation] = answer.number();
        answers[2 * operation + 1] = answer.value();
    }

    /// After 1 and 2 nobody knows where the next operation starts: such an answer is the batch's last. After every other
    /// refusal the batch goes on, an operation's own 6 for the room too.
    fn ends_batch(&self, answer: Answer) -> bool {
        matches!(answer, Answer::Refused(Refusal::Malformed | Refusal::UnknownCode))
    }
}

impl Batches for Document01 {}

#[cfg(test)]
mod tests {
    use super::*;
    use crate::s1::{bytes, S1};
    use crate::State;

    /// What stands in lent numbers before a call.
    const BEFORE: u64 = 0xB47C;

    /// What is lent to a batch, and what became of it.
    #[derive(Clone, Debug, PartialEq)]
    struct Lent {
        state: Vec<u64>,
        room: Vec<u64>,
        answers: Vec<u64>,
    }

    impl Lent {
        /// A fresh state, and so many numbers for records and for answers.
        fn fresh(room: usize, answers: usize) -> Lent {
            Lent { state: vec![0; State::NUMBERS], room: vec![BEFORE; room], answers: vec![BEFORE; answers] }
        }

        fn batch(&mut self, bytes: &[u8]) -> Result<usize, Refusal> {
            Document01.batch(&mut self.state, &mut self.room, bytes, &mut self.answers)
        }

        fn refused(&mut self, bytes: &[u8], refusal: Refusal) {
            let before = self.clone();
            assert_eq!(self.batch(bytes), Err(refusal));
            assert_eq!(*self, before, "a refused batch leaves all untouched");
        }
    }

    /// The answers of the four reads of S1.
    const S1_READS: [u64; 8] = [0, 0x0000_012C_0000_0843, 0, 0x0000_4000_0000_0043, 0, 0x1010, 100, 0];

    #[test]
    fn session_s1_as_a_batch() {
        let s1 = bytes(S1);
        assert_eq!(s1.len(), 59);
        for numbers in [24, 25, 60] {
            let mut lent = Lent::fresh(192, numbers);
            assert_eq!(lent.batch(&s1), Ok(12), "{numbers} numbers");
            assert_eq!(lent.answers[..16], [0; 16]);
            assert_eq!(lent.answers[16..24], S1_READS);
            assert!(lent.answers[24..].iter().all(|&number| number == BEFORE), "{numbers} numbers");
            assert_eq!(lent.state, [1, 8, 0, 49, 10, 8, 65536, 0, 0, 0, 0, 6]);
            assert_eq!(lent.room[18..20], [0x0000_012C_0000_0843, 0x1010], "at place 6");
        }
        for numbers in [23, 22, 0] {
            Lent::fresh(192, numbers).refused(&s1, Refusal::RoomTooShort);
        }
    }

    #[test]
    fn a_run_that_is_cut_off_has_an_answer_for_its_last_operation() {
        let cut = &bytes(S1)[..58];
        let mut lent = Lent::fresh(192, 24);
        assert_eq!(lent.batch(cut), Ok(12));
        assert_eq!(lent.answers[16..22], S1_READS[..6]);
        assert_eq!(lent.answers[22..], [1, 0]);
        Lent::fresh(192, 23).refused(cut, Refusal::RoomTooShort);
        Lent::fresh(192, 1).refused(&[0x80], Refusal::RoomTooShort);
    }

    #[test]
    fn an_unknown_code_is_the_last_that_is_answered() {
        let run = bytes("0 0 8 0 / 11 / 5 0 0");
        let mut lent = Lent::fresh(24, 6);
        assert_eq!(lent.batch(&run), Ok(2));
        assert_eq!(lent.answers, [0, 0, 2, 0, BEFORE, BEFORE]);
        assert_eq!(Lent::fresh(24, 4).batch(&run), Ok(2));
        Lent::fresh(24, 3).refused(&run, Refusal::RoomTooShort);
    }

    #[test]
    fn a_run_of_no_bytes_has_no_answer() {
        for numbers in [0, 1, 2] {
            let mut lent = Lent::fresh(24, numbers);
            assert_eq!(lent.batch(&[]), Ok(0));
            assert_eq!(lent, Lent::fresh(24, numbers));
        }
    }

    #[test]
    fn soundness_is_judged_first() {
        for run in ["", "0 0 8 0", "11", "0 0 8 0 / 11"] {
            let mut lent = Lent::fresh(24, 0);
            lent.state[0] = 4;
            lent.refused(&bytes(run), Refusal::NotSound);
            lent.state.truncate(State::NUMBERS - 1);
            lent.state.fill(0);
            lent.refused(&bytes(run), Refusal::NotSound);
        }
    }

    #[test]
    fn a_refused_operation_is_answered_and_the_batch_goes_on() {
        let run = bytes("7 0 / 0 0 9 0 / 0 0 16 0 / 0 0 8 0 / 9 0 4 3 / 2 0 34 0 0 0 / 5 0 0");
        let mut lent = Lent::fresh(24, 14);
        assert_eq!(lent.batch(&run), Ok(7));
        assert_eq!(lent.answers, [3, 0, 4, 0, 6, 0, 0, 0, 8, 0, 5, 0, 0, 0x5008]);
    }
}
