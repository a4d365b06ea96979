//! Which outcomes were met, and how often: a generator that never records proves nothing.

use crate::engine::Lent;
use crate::{freezes, halts, starts, Call, Since};
use model::{Cause, Document01, Rules, Shape, State};
use std::fmt;

/// What is counted, in groups.
const GROUPS: [(&str, &[&str]); 20] = [
    (
        "answers",
        &[
            "done",
            "undefined",
            "trap2",
            "trap3",
            "refused 2",
            "refused 3",
            "refused 4",
            "refused 5",
            "refused 6",
            "refused 7",
            "refused 8",
        ],
    ),
    (
        "events",
        &[
            "branch full",
            "branch none",
            "exception full",
            "exception half-source",
            "exception half-target",
            "exception none",
            "return full",
            "return half-source",
            "return half-target",
            "return none",
            "halt half-source",
            "halt none",
            "resume half-target",
            "resume none",
        ],
    ),
    ("records", &["known", "unknown", "exceeded"]),
    (
        "unsound states",
        &[
            "too short",
            "level above 3",
            "size outside its list",
            "v1p1 above 1",
            "P outside its mask",
            "BRBCR_EL1 outside its mask",
            "BRBCR_EL2 outside its mask",
            "BRBFCR_EL1 outside its mask",
            "level 2 with EL2 not enabled",
            "level 1 with TGE and EL2 enabled",
            "count above 1,048,576",
            "unknown above 1",
            "halted above 1",
            "one number too few",
            "start is the size",
            "start one above the size",
            "start above the size, up to 63",
            "start 64 or above",
            "start near 2^64",
            "start not 0 before a reset",
        ],
    ),
    (
        "counts after BRB IALL",
        &["unknown by a performed one alone", "known after a trapped one", "known after an undefined one"],
    ),
    ("halts at each level", &halts::AT_LEVELS),
    ("resumes to each level", &halts::AT_LEVELS),
    ("what 8 refuses", &halts::REFUSED_8),
    ("while halted", &halts::WHILE_HALTED),
    (
        "counts and halts",
        &["known of a halt", "unknown by a resume alone", "unknown by others halted alone", "known after a resume's"],
    ),
    ("freezes", &freezes::FROZEN),
    ("differences of freezes", &freezes::DIFFERENCES),
    ("freezes that do not happen", &freezes::NOT_FROZEN),
    ("accesses to BRBTS_EL1", &freezes::ACCESSES),
    ("while frozen", &freezes::WHILE_FROZEN),
    ("recorded events, by size and start", &starts::PUSHED),
    ("reads of records, by their places", &starts::READ),
    ("what puts the start to 0", &starts::CLEARED),
    ("what keeps a start that is not 0", &starts::KEPT),
    ("what 7 refuses by the start alone", &starts::UNSOUND),
];

/// The groups by their places.
const ANSWERS: usize = 0;
const EVENTS: usize = 1;
const RECORDS: usize = 2;
const UNSOUND: usize = 3;
const AFTER_IALL: usize = 4;
const HALTS: usize = 5;
const RESUMES: usize = 6;
const REFUSED_8: usize = 7;
const WHILE_HALTED: usize = 8;
const COUNTS_AND_HALTS: usize = 9;
const FROZEN: usize = 10;
const DIFFERENCES: usize = 11;
const NOT_FROZEN: usize = 12;
const ACCESSES: usize = 13;
const WHILE_FROZEN: usize = 14;
const PUSHED: usize = 15;
const READ: usize = 16;
const CLEARED: usize = 17;
const KEPT: usize = 18;
const UNSOUND_START: usize = 19;

/// A group has at most so many classes.
const MOST: usize = 21;

/// How many reasons there are for a state not to be sound.
pub const REASONS: usize = GROUPS[UNSOUND].1.len();

/// Classes of a record's count, by their places in the group of records.
pub const KNOWN: usize = 0;
pub const UNKNOWN: usize = 1;
const EXCEEDED: usize = 2;

/// How often each outcome was met.
#[derive(Clone, Debug, Default)]
pub struct Shares {
    met: [[u64; MOST]; GROUPS.len()],
}

impl Shares {
    /// Notes an answered operation: the answer, what an accepted event became, and the count of its record. Answers the cause
    /// of the record, if there is one.
    pub fn note(&mut self, before: &[u64], call: Call, number: u64, after: &Lent) -> Option<Cause> {
        self.met[ANSWERS][answer_class(number)] += 1;
        let room = after.room.len();
        let event = if call.is_event() && number == 0 { event_of(before, room, call) } else { None };
        let recorded = matches!(event, Some((_, Some(_))));
        match Document01.sound(before) {
            Some(state) if state.size != 0 => {
                self.note_halts(&state, call, number, room);
                self.note_freezes(&state, call, number);
                self.note_starts(&state, call, number, recorded);
            }
            Some(_) => {}
            None => self.count([(UNSOUND_START, starts::of_unsound(before))]),
        }
        let (cause, shape) = event?;
        self.met[EVENTS][event_class(cause, shape)] += 1;
        shape.map(|_| {
            self.met[RECORDS][count_class(after.newest()[0])] += 1;
            cause
        })
    }

    /// Notes what the start has to do with an answered operation.
    fn note_starts(&mut self, state: &State, call: Call, number: u64, recorded: bool) {
        self.count([
            (PUSHED, recorded.then(|| starts::of_record(state))),
            (READ, starts::of_read(state, call, number)),
            (CLEARED, starts::of_clearing(state, call, number)),
            (KEPT, if recorded { None } else { starts::of_keeping(state, call, number) }),
        ]);
    }

    /// Notes what a halt has to do with an answered operation.
    fn note_halts(&mut self, state: &State, call: Call, number: u64, room: usize) {
        let accepted = (number == 0).then_some(call);
        let refused = halts::refused(state, call, number, room).into_iter().map(|class| (REFUSED_8, Some(class)));
        self.count(refused);
        self.count([
            (HALTS, accepted.and_then(|call| halts::of_halt(state, call))),
            (RESUMES, accepted.and_then(|call| halts::of_resume(state, call))),
            (WHILE_HALTED, halts::while_halted(state, call, number)),
        ]);
    }

    /// Notes what a freeze has to do with an answered operation.
    fn note_freezes(&mut self, state: &State, call: Call, number: u64) {
        let accepted = (number == 0).then_some(call);
        let frozen = accepted.and_then(|call| freezes::of_freeze(state, call));
        self.count([
            (FROZEN, frozen.map(|(class, _)| class)),
            (DIFFERENCES, frozen.and_then(|(_, difference)| difference)),
            (NOT_FROZEN, freezes::of_none(state, call, number)),
            (ACCESSES, freezes::of_access(state, call, number)),
        ]);
    }

    /// Counts the class of each group that has one.
    fn count(&mut self, classes: impl IntoIterator<Item = (usize, Option<usize>)>) {
        for (group, class) in classes {
            class.into_iter().for_each(|class| self.met[group][class] += 1);
        }
    }

    /// The same of a sequence's operation, with what came since the last record.
    pub fn note_in_sequence(&mut self, since: &mut Since, before: &[u64], call: Call, number: u64, lent: &Lent) {
        self.count([(WHILE_FROZEN, since.frozen_class(before, &lent.state, call, number))]);
        since.note(before, &lent.state, call, number);
        if let Some(cause) = self.note(before, call, number, lent) {
            let count = count_class(lent.newest()[0]);
            self.count([
                (AFTER_IALL, since.class(before, count)),
                (COUNTS_AND_HALTS, since.halt_class(before, cause, count)),
                (WHILE_FROZEN, since.freeze_class(before, count)),
            ]);
            *since = Since::record(cause);
        }
    }

    /// Notes a state that is not sound, by its reason's number.
    pub fn note_unsound(&mut self, reason: usize) {
        self.met[UNSOUND][reason] += 1;
    }

    /// The classes that were met fewer than `least` times. `except` names classes that cannot be met.
    pub fn rare(&self, least: u64, except: &[&str]) -> Vec<String> {
        let rare = self
            .rows()
            .filter(|&(group, name, met)| met < least && !except.contains(&name) && !except.contains(&group));
        rare.map(|(group, name, met)| format!("{group}: {name}: {met}")).collect()
    }

    fn rows(&self) -> impl Iterator<Item = (&'static str, &'static str, u64)> + '_ {
        GROUPS
            .iter()
            .zip(&self.met)
            .flat_map(|((group, names), met)| names.iter().zip(met).map(move |(name, &met)| (*group, *name, met)))
    }
}

impl fmt::Display for Shares {
    fn fmt(&self, f: &mut fmt::Formatter<'_>) -> fmt::Result {
        for ((group, names), met) in GROUPS.iter().zip(&self.met) {
            let all: u64 = met.iter().sum();
            if all == 0 {
                continue;
            }
            writeln!(f, "  {group}: {all}")?;
            for (name, &met) in names.iter().zip(met) {
                writeln!(f, "    {name:<36}{met:>12}  {:5.1} %", met as f64 * 100.0 / all as f64)?;
            }
        }
        Ok(())
    }
}

fn answer_class(number: u64) -> usize {
    match number {
        0 => 0,
        100 => 1,
        102 => 2,
        103 => 3,
        refusal => 2 + refusal as usize,
    }
}

fn event_class(cause: Cause, shape: Option<Shape>) -> usize {
    let side = match shape {
        Some(Shape::Full) => 0,
        Some(Shape::HalfSource) => 1,
        Some(Shape::HalfTarget) => 2,
        None => 3,
    };
    match cause {
        Cause::Branch(_) => usize::from(shape.is_none()),
        Cause::Exception(_) => 2 + side,
        Cause::Return => 6 + side,
        Cause::Halt => 10 + usize::from(shape.is_none()),
        Cause::Resume => 12 + usize::from(shape.is_none()),
    }
}

fn count_class(inf: u64) -> usize {
    match (inf >> 46 & 1, inf >> 32 & 0x3FFF) {
        (1, _) => UNKNOWN,
        (_, 0x3FFF) => EXCEEDED,
        _ => KNOWN,
    }
}

/// An accepted event's cause, and its record's shape as document 01 has it.
fn event_of(before: &[u64], room: usize, call: Call) -> Option<(Cause, Option<Shape>)> {
    let (state, operation) = Document01.accept(before, room, call.0).ok()?;
    let event = operation.event(Document01.begins(&state))?;
    Some((event.cause, Document01.shape(&state, &event)))
}
