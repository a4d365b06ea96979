//! The comparison of batches is tried on wrong models, each with one planted error: it must find the error and shrink the run
//! to a few bytes. `-- --nocapture` shows each shrunk case.

use compare::batch::{run, Batching, Classes};
use compare::planted::{check_lines, SEED};
use compare::run::Disagreement;
use compare::seed;
use compare::{Library, Modelled, Random, Shares};
use model::{Answer, Batches, Document01, Recordings, Refusal, Rules};

/// How many rounds of batches an error may hide from.
const ROUNDS: usize = 100;
/// A shrunk case is printed on a line of at most so many characters.
const LONGEST: usize = 160;

/// Wrong models, each by the words that say what is wrong and the rules of a batch that it changes.
macro_rules! planted {
    ($(($words:literal, $name:ident { $($rule:tt)* }))*) => {
        $(
            struct $name;
            impl Rules for $name {}
            impl Recordings for $name {}
            impl Batches for $name { $($rule)* }
        )*
        const PLANTED: &[(&str, &dyn Batching)] = &[$(($words, &Modelled($name))),*];
    };
}

/// What a batch of the model comes to.
type Done = Result<usize, Refusal>;

/// What a batch would leave of state, room and answers, were there numbers enough for the answers.
fn left_by_enough(state: &[u64], room: &[u64], bytes: &[u8]) -> [Vec<u64>; 3] {
    let mut answers = vec![0; 2 * Document01.answered_operations(bytes)];
    let (mut state, mut room) = (state.to_vec(), room.to_vec());
    let done = Document01.batch(&mut state, &mut room, bytes, &mut answers);
    assert!(done.is_ok(), "7 comes before 6");
    [state, room, answers]
}

/// An answer as far as there are numbers for it.
fn put_where_it_fits(answers: &mut [u64], operation: usize, answer: Answer) {
    if 2 * operation + 2 <= answers.len() {
        Document01.put_answer(answers, operation, answer);
    }
}

planted! {
    ("a refused operation ends the batch", EndsWithRefused {
        fn ends_batch(&self, answer: Answer) -> bool {
            matches!(answer, Answer::Refused(_))
        }
    })
    ("an operation's own 6 ends the batch", EndsWithOwn6 {
        fn ends_batch(&self, answer: Answer) -> bool {
            Document01.ends_batch(answer) || answer == Answer::Refused(Refusal::RoomTooShort)
        }
    })
    ("the answers that fit are written on 6", AnswersOn6 {
        fn batch(&self, state: &mut [u64], room: &mut [u64], bytes: &[u8], answers: &mut [u64]) -> Done {
            let done = Document01.batch(state, room, bytes, answers);
            if done == Err(Refusal::RoomTooShort) {
                let [_, _, enough] = left_by_enough(state, room, bytes);
                answers.copy_from_slice(&enough[..answers.len()]);
            }
            done
        }
    })
    ("the state is stored on 6", StateOn6 {
        fn batch(&self, state: &mut [u64], room: &mut [u64], bytes: &[u8], answers: &mut [u64]) -> Done {
            let done = Document01.batch(state, room, bytes, answers);
            if done == Err(Refusal::RoomTooShort) {
                let [left, _, _] = left_by_enough(state, room, bytes);
                state.copy_from_slice(&left);
            }
            done
        }
    })
    ("the room is changed on 6", RoomOn6 {
        fn batch(&self, state: &mut [u64], room: &mut [u64], bytes: &[u8], answers: &mut [u64]) -> Done {
            let done = Document01.batch(state, room, bytes, answers);
            if done == Err(Refusal::RoomTooShort) {
                let [_, left, _] = left_by_enough(state, room, bytes);
                room.copy_from_slice(&left);
            }
            done
        }
    })
    ("the operation that ends the batch does not count for 6", LastNotCounted {
        fn answers_too_short(&self, bytes: &[u8], answers: usize) -> bool {
            let (mut at, mut operations) = (0, 0);
            while let Ok((_, next)) = self.read_operation(bytes, at) {
                (at, operations) = (next, operations + 1);
            }
            answers < 2 * operations
        }
        fn put_answer(&self, answers: &mut [u64], operation: usize, answer: Answer) {
            put_where_it_fits(answers, operation, answer);
        }
    })
    ("a last byte alone does not count for 6", LastByteNotCounted {
        fn answers_too_short(&self, bytes: &[u8], answers: usize) -> bool {
            answers < 2 * (bytes.len() / 2) && Document01.answers_too_short(bytes, answers)
        }
        fn put_answer(&self, answers: &mut [u64], operation: usize, answer: Answer) {
            put_where_it_fits(answers, operation, answer);
        }
    })
    ("one number too few is enough", OneTooFew {
        fn answers_too_short(&self, bytes: &[u8], answers: usize) -> bool {
            Document01.answers_too_short(bytes, answers + 1)
        }
        fn put_answer(&self, answers: &mut [u64], operation: usize, answer: Answer) {
            put_where_it_fits(answers, operation, answer);
        }
    })
    ("numbers are needed for the answers of any run of this length", AnyRun {
        fn answers_too_short(&self, bytes: &[u8], answers: usize) -> bool {
            answers < 2 * bytes.len().div_ceil(2)
        }
    })
    ("6 is judged before 7", SoundnessLast {
        fn batch_refusal(&self, state: &[u64], bytes: &[u8], answers: usize) -> Option<Refusal> {
            let short = self.answers_too_short(bytes, answers);
            if short { Some(Refusal::RoomTooShort) } else { Document01.batch_refusal(state, bytes, answers) }
        }
    })
    ("7 is not judged where there are no bytes", NothingIsSound {
        fn batch_refusal(&self, state: &[u64], bytes: &[u8], answers: usize) -> Option<Refusal> {
            if bytes.is_empty() { None } else { Document01.batch_refusal(state, bytes, answers) }
        }
    })
    ("no bytes are an operation that is cut off", NothingIsCutOff {
        fn batch(&self, state: &mut [u64], room: &mut [u64], bytes: &[u8], answers: &mut [u64]) -> Done {
            let done = Document01.batch(state, room, bytes, answers);
            if done == Ok(0) && answers.len() > 1 {
                Document01.put_answer(answers, 0, Answer::Refused(Refusal::Malformed));
                return Ok(1);
            }
            done
        }
    })
    ("an answer too few is told", OneFewerTold {
        fn batch(&self, state: &mut [u64], room: &mut [u64], bytes: &[u8], answers: &mut [u64]) -> Done {
            Document01.batch(state, room, bytes, answers).map(|answered| answered.saturating_sub(1))
        }
    })
    ("the operation that ends the batch has no answer", LastNotAnswered {
        fn put_answer(&self, answers: &mut [u64], operation: usize, answer: Answer) {
            if !self.ends_batch(answer) {
                Document01.put_answer(answers, operation, answer);
            }
        }
    })
    ("an operation that is not accepted has no answer", RefusedNotAnswered {
        fn put_answer(&self, answers: &mut [u64], operation: usize, answer: Answer) {
            if !matches!(answer, Answer::Refused(_)) {
                Document01.put_answer(answers, operation, answer);
            }
        }
    })
    ("the value of an answer that has none is not written", NoValueNotWritten {
        fn put_answer(&self, answers: &mut [u64], operation: usize, answer: Answer) {
            let before = answers[2 * operation + 1];
            Document01.put_answer(answers, operation, answer);
            if !matches!(answer, Answer::Read(_)) {
                answers[2 * operation + 1] = before;
            }
        }
    })
    ("a batch keeps the start that it began with", StartKept {
        fn batch(&self, state: &mut [u64], room: &mut [u64], bytes: &[u8], answers: &mut [u64]) -> Done {
            let start = state.get(11).copied();
            let done = Document01.batch(state, room, bytes, answers);
            start.into_iter().for_each(|start| state[11] = start);
            done
        }
    })
    ("numbers past the answers are set to 0", PastTheAnswers {
        fn batch(&self, state: &mut [u64], room: &mut [u64], bytes: &[u8], answers: &mut [u64]) -> Done {
            let answered = Document01.batch(state, room, bytes, answers)?;
            answers[2 * answered..].fill(0);
            Ok(answered)
        }
    })
}

/// The first disagreement of two, or of the first's batches with its single calls.
fn found(engines: [&dyn Batching; 2], seed: u64) -> Option<Disagreement> {
    let (mut classes, mut shares) = (Classes::default(), Shares::default());
    run::batches(engines, &mut Random::new(seed), ROUNDS, &mut classes, &mut shares).err()
}

#[test]
fn each_planted_error_of_batches_is_found_and_shrunk() {
    const TEST: &str = "planted errors of batches";
    let seed = seed::of_test(TEST, || SEED);
    let found = PLANTED.iter().map(|&(words, wrong)| (words, found([&Library, wrong], seed)));
    check_lines(TEST, found, LONGEST);
}

/// A wrong model beside itself: what its single calls make of a run tells the error alone.
#[test]
fn each_planted_error_of_batches_is_told_by_single_calls() {
    let seed = seed::of_test("planted errors of batches, by single calls", || SEED);
    let told = |wrong| found([wrong, wrong], seed).is_some_and(|told| told.how.contains("single calls"));
    let missed: Vec<&str> = PLANTED.iter().filter(|(_, wrong)| !told(*wrong)).map(|(words, _)| *words).collect();
    assert!(missed.is_empty(), "{missed:#?}");
}
