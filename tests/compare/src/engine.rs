//! The two that are compared, behind one signature.

use crate::Call;
use model::{Answer, Asked, Part, Record, Recordings, Refusal};

/// Something that takes an operation on lent numbers and answers a number and a value, that shows records without an
/// operation, and that reads, writes and steps recordings.
pub trait Engine {
    fn name(&self) -> &str;
    fn step(&self, state: &mut [u64], room: &mut [u64], call: Call) -> (u64, u64);
    /// A read, where the engine has it as a function of its own.
    fn read(&self, state: &mut [u64], room: &mut [u64], cycles: u64, register: u64) -> (u64, u64) {
        self.step(state, room, Call([5, cycles, register, 0, 0, 0]))
    }
    /// One register of the records, by the bank view.
    fn bank(&self, room: &[u64], asked: Asked, part: Part) -> (u64, u64);
    /// Reads the operation at a position of a recording into a lent place.
    fn recording_read(&self, bytes: &[u8], at: usize, place: &mut [u64]) -> (u64, u64);
    /// Writes an operation at a position of lent bytes.
    fn recording_write(&self, bytes: &mut [u8], at: usize, call: Call) -> (u64, u64);
    /// Steps the operation at a position of a recording: the answer, and the position that follows.
    fn step_recorded(&self, state: &mut [u64], room: &mut [u64], bytes: &[u8], at: usize) -> ((u64, u64), u64);
}

/// The proved library.
pub struct Library;

impl Engine for Library {
    fn name(&self) -> &str {
        "library"
    }

    fn step(&self, state: &mut [u64], room: &mut [u64], Call([code, cycles, fields @ ..]): Call) -> (u64, u64) {
        let answer = brb::step(state, room, brb::Operation { code, cycles, fields });
        (answer.number, answer.value)
    }

    fn read(&self, state: &mut [u64], room: &mut [u64], cycles: u64, register: u64) -> (u64, u64) {
        let answer = brb::read(state, room, cycles, register);
        (answer.number, answer.value)
    }

    fn bank(&self, room: &[u64], Asked { size, start, bank, m }: Asked, part: Part) -> (u64, u64) {
        let view = match part {
            Part::Inf => brb::bank_inf,
            Part::Source => brb::bank_source,
            Part::Target => brb::bank_target,
        };
        let answer = view(room, size, start, bank, m);
        (answer.number, answer.value)
    }

    fn recording_read(&self, bytes: &[u8], at: usize, place: &mut [u64]) -> (u64, u64) {
        let answer = brb::recording_read(bytes, at, place);
        (answer.number, answer.value)
    }

    fn recording_write(&self, bytes: &mut [u8], at: usize, Call([code, cycles, fields @ ..]): Call) -> (u64, u64) {
        let answer = brb::recording_write(bytes, at, brb::Operation { code, cycles, fields });
        (answer.number, answer.value)
    }

    fn step_recorded(&self, state: &mut [u64], room: &mut [u64], bytes: &[u8], at: usize) -> ((u64, u64), u64) {
        let recorded = brb::step_recorded(state, room, bytes, at);
        ((recorded.number, recorded.value), recorded.next)
    }
}

/// The Rust model, or a wrong one.
pub struct Modelled<R>(pub R);

impl<R: Recordings> Engine for Modelled<R> {
    fn name(&self) -> &str {
        "model"
    }

    fn step(&self, state: &mut [u64], room: &mut [u64], call: Call) -> (u64, u64) {
        let answer: Answer = self.0.step(state, room, call.0);
        (answer.number(), answer.value())
    }

    fn bank(&self, room: &[u64], asked: Asked, part: Part) -> (u64, u64) {
        let shown = self.0.bank_shows(room, asked, part);
        shown.map_or_else(|refusal| (refusal as u64, 0), |value| (0, value))
    }

    fn recording_read(&self, bytes: &[u8], at: usize, place: &mut [u64]) -> (u64, u64) {
        numbered(self.0.read_into(bytes, at, place))
    }

    fn recording_write(&self, bytes: &mut [u8], at: usize, call: Call) -> (u64, u64) {
        numbered(self.0.write_operation(bytes, at, call.0))
    }

    fn step_recorded(&self, state: &mut [u64], room: &mut [u64], bytes: &[u8], at: usize) -> ((u64, u64), u64) {
        let step = self.0.step_recorded(state, room, bytes, at);
        ((step.answer.number(), step.answer.value()), step.next as u64)
    }
}

/// What was read, written or done as an answer: 0 with the number of bytes, the position or the number of operations, or the
/// refusal with 0.
pub(crate) fn numbered(outcome: Result<usize, Refusal>) -> (u64, u64) {
    match outcome {
        Ok(value) => (0, value as u64),
        Err(refusal) => (refusal as u64, 0),
    }
}

/// Whether an answer's number is a refusal: those of accepted operations are 0 and from 100 on.
pub(crate) fn is_refused(number: u64) -> bool {
    (1..100).contains(&number)
}

/// A state and a room that an engine works on.
#[derive(Clone, Debug, PartialEq, Eq)]
pub struct Lent {
    pub state: Vec<u64>,
    pub room: Vec<u64>,
}

impl Lent {
    /// The records, newest first, by the state's own size and start: from the start's place to the last one, then from place 0
    /// on. A start that the size has not is taken as its end.
    pub fn records(&self) -> impl Iterator<Item = Record> + '_ {
        let number = |place: usize| self.state[place].min(brb::LARGEST_SIZE as u64) as usize;
        let size = number(brb::STATE_SIZE).min(self.room.len() / 3);
        let (before, from) = self.room[..3 * size].split_at(3 * number(brb::STATE_START).min(size));
        from.chunks_exact(3).chain(before.chunks_exact(3)).map(|record| [record[0], record[1], record[2]])
    }

    /// Record 0, after a reset.
    pub fn newest(&self) -> Record {
        self.records().next().expect("a state with a size, and a room that holds it")
    }

    /// The first difference of what two engines left and answered, in words.
    pub fn difference(engines: [&dyn Engine; 2], lent: [&Lent; 2], answers: [(u64, u64); 2]) -> Option<String> {
        Lent::difference_between(engines.map(|engine| engine.name()), lent, answers)
    }

    /// The same under two names.
    pub fn difference_between(names: [&str; 2], lent: [&Lent; 2], answers: [(u64, u64); 2]) -> Option<String> {
        let [left, right] = names;
        let say = |what: String, l: String, r: String| Some(format!("{what}: {left} {l}, {right} {r}"));
        if answers[0] != answers[1] {
            let [l, r] = answers.map(|(number, value)| format!("{number} {value:#x}"));
            return say("answer".into(), l, r);
        }
        if lent[0] == lent[1] {
            return None;
        }
        let areas = [(true, &lent[0].state, &lent[1].state), (false, &lent[0].room, &lent[1].room)];
        for (is_state, l, r) in areas {
            if let Some(place) = (0..l.len()).find(|&place| l[place] != r[place]) {
                let what = if is_state { state_place(place) } else { room_place(place) };
                return say(what, format!("{:#x}", l[place]), format!("{:#x}", r[place]));
            }
        }
        None
    }
}

/// A state's numbers by name.
const STATE_NAMES: [&str; model::State::NUMBERS] = [
    "level",
    "size",
    "v1p1",
    "P",
    "BRBCR_EL1",
    "BRBCR_EL2",
    "BRBFCR_EL1",
    "count",
    "unknown",
    "halted",
    "BRBTS_EL1",
    "start",
];

fn state_place(place: usize) -> String {
    format!("state number {place} ({})", STATE_NAMES.get(place).unwrap_or(&"past the state"))
}

fn room_place(place: usize) -> String {
    format!("room number {place} ({} of place {})", ["BRBINF", "BRBSRC", "BRBTGT"][place % 3], place / 3)
}
