//! The classes of halts and resumes (document 02, Five): what became of each at each level, what is refused with 8, and what a
//! halted processor takes.

use crate::Call;
use model::{Document01, Level, Operation, Rules, State};

/// What became of a halt, by the level left, and of a resume, by the level entered.
pub const AT_LEVELS: [&str; 12] = [
    "EL0, a record",
    "EL0, prohibited",
    "EL0, paused",
    "EL1, a record",
    "EL1, prohibited",
    "EL1, paused",
    "EL2, a record",
    "EL2, prohibited",
    "EL2, paused",
    "EL3, a record",
    "EL3, prohibited",
    "EL3, paused",
];

/// What is refused with 8, and what else is wrong with it.
pub const REFUSED_8: [&str; 8] = [
    "a branch",
    "an exception",
    "a return",
    "a halt",
    "a resume",
    "where 5 would follow",
    "where 6 would follow",
    "not, since 4 comes first",
];
const FIVE_FOLLOWS: usize = 5;
const SIX_FOLLOWS: usize = 6;
const FOUR_FIRST: usize = 7;

/// What becomes of operations that a halted processor takes, and of a resume to a level that is not there.
pub const WHILE_HALTED: [&str; 12] = [
    "an access performed",
    "an access undefined",
    "an access trapped to EL2",
    "an access trapped to EL3",
    "a platform word accepted",
    "a platform word refused 5",
    "a reset",
    "a resume that goes down",
    "a resume that stays",
    "a resume that goes up",
    "a resume refused 5 for target 2",
    "a resume refused 5 for target 1",
];

/// The class of an accepted halt among [`AT_LEVELS`].
pub fn of_halt(state: &State, call: Call) -> Option<usize> {
    (call.code() == 8).then(|| at_level(state, state.level))
}

/// The class of an accepted resume among [`AT_LEVELS`].
pub fn of_resume(state: &State, call: Call) -> Option<usize> {
    Some(at_level(state, target_level(call)?))
}

fn at_level(state: &State, level: Level) -> usize {
    let what = match (state.paused(), Document01.prohibited(state, level)) {
        (true, _) => 2,
        (false, prohibited) => usize::from(prohibited),
    };
    3 * level.number() as usize + what
}

fn target_level(call: Call) -> Option<Level> {
    match call.operation()? {
        Operation::Resume { to, .. } => Some(to),
        _ => None,
    }
}

/// The classes of an answered operation among [`REFUSED_8`].
pub fn refused(state: &State, call: Call, number: u64, room: usize) -> Vec<usize> {
    let own = match call.code() {
        code @ 1..=3 if state.halted => code as usize - 1,
        8 if state.halted => 3,
        9 if !state.halted => 4,
        _ => return Vec::new(),
    };
    match (number, call.operation()) {
        (4, None) => vec![FOUR_FIRST],
        (8, Some(operation)) => {
            let five = !Document01.permits(state, &operation);
            let six = room < Document01.room_needed(state, &operation);
            let behind = [(five, FIVE_FOLLOWS), (six, SIX_FOLLOWS)];
            behind.into_iter().filter(|(follows, _)| *follows).map(|(_, class)| class).chain([own]).collect()
        }
        _ => Vec::new(),
    }
}

/// The class of an answered operation among [`WHILE_HALTED`].
pub fn while_halted(state: &State, call: Call, number: u64) -> Option<usize> {
    if !state.halted {
        return None;
    }
    match (call.code(), number) {
        (5..=7, 0) => Some(0),
        (5..=7, 100) => Some(1),
        (5..=7, 102) => Some(2),
        (5..=7, 103) => Some(3),
        (4, 0) => Some(4),
        (4, 5) => Some(5),
        (0, 0) => Some(6),
        (9, 0) => Some((8 + target_level(call)?.cmp(&state.level) as i64) as usize),
        (9, 5) if target_level(call) == Some(Level::EL2) => Some(10),
        (9, 5) => Some(11),
        _ => None,
    }
}
