//! The classes of freezes (document 02, Six): by which TS each keeps its time, why one does not happen, what becomes of
//! accesses to BRBTS_EL1, and what a sequence meets while a freeze pauses it.

use crate::engine::is_refused;
use crate::Call;
use model::{ts, Cause, Clock, Document01, Group, Operation, Rules, State, PAUSED};

/// The TS that decides on the time of a freeze that happens, by the freeze's group.
pub const FROZEN: [&str; 14] = [
    "group 0, TS 0 of both registers",
    "group 0, TS 1 of BRBCR_EL2",
    "group 0, TS 2 of BRBCR_EL2",
    "group 0, TS 3 of BRBCR_EL2",
    "group 0, TS 1 of BRBCR_EL1",
    "group 0, TS 2 of BRBCR_EL1",
    "group 0, TS 3 of BRBCR_EL1",
    "group 1, TS 0 of both registers",
    "group 1, TS 1 of BRBCR_EL2",
    "group 1, TS 2 of BRBCR_EL2",
    "group 1, TS 3 of BRBCR_EL2",
    "group 1, TS 1 of BRBCR_EL1",
    "group 1, TS 2 of BRBCR_EL1",
    "group 1, TS 3 of BRBCR_EL1",
];

/// The count and the offset that a freeze takes the difference of: it wraps in the last two cases of each TS.
pub const DIFFERENCES: [&str; 8] = [
    "TS 1, the offset below the count",
    "TS 1, the offset is the count",
    "TS 1, the offset one above it",
    "TS 1, the offset far above it",
    "TS 2, the offset below the count",
    "TS 2, the offset is the count",
    "TS 2, the offset one above it",
    "TS 2, the offset far above it",
];

/// The one reason for which a freeze does not happen, and what is refused of one.
pub const NOT_FROZEN: [&str; 11] = [
    "group 0, no FZP",
    "group 0, FZP of BRBCR_EL2 alone",
    "group 0, prohibited",
    "group 0, halted",
    "group 0, PAUSED",
    "group 1, no FZP",
    "group 1, FZP of BRBCR_EL1 alone",
    "group 1, prohibited",
    "group 1, halted",
    "group 1, PAUSED",
    "refused 4, a group above 1",
];
const REFUSED: usize = 10;

/// What becomes of reads and writes of BRBTS_EL1.
pub const ACCESSES: [&str; 11] = [
    "read at EL1",
    "read at EL2",
    "read at EL3",
    "read undefined at EL0",
    "read trapped to EL2 at EL1",
    "read trapped to EL3 at EL1",
    "read trapped to EL3 at EL2",
    "write undefined at EL0",
    "write undefined at EL1",
    "write undefined at EL2",
    "write undefined at EL3",
];

/// What comes between a freeze and the end of its pause: events that would be records without it, another overflow, and what
/// ends the pause. The last is the first record after such a write, whose count nothing else makes unknown.
pub const WHILE_FROZEN: [&str; 9] = [
    "a branch not recorded",
    "an exception not recorded",
    "a return not recorded",
    "a halt not recorded",
    "a resume not recorded",
    "an overflow that keeps the time",
    "a write that clears PAUSED",
    "a reset",
    "then a count unknown by that alone",
];
const OVERFLOW: usize = 5;
const CLEARED: usize = 6;
const RESET: usize = 7;
pub const UNKNOWN_AFTER: usize = 8;

/// The classes of an accepted freeze among [`FROZEN`] and [`DIFFERENCES`], if it happens.
pub fn of_freeze(state: &State, call: Call) -> Option<(usize, Option<usize>)> {
    let (group, clock) = freeze(call)?;
    if !Document01.freezes(state, group) {
        return None;
    }
    let (ts, place) = match (ts(state.cr2), ts(state.cr1)) {
        (0, ts) if ts != 0 => (ts, 3 + ts as usize),
        (ts, _) => (ts, ts as usize),
    };
    Some((7 * group as usize + place, difference(ts, &clock)))
}

fn freeze(call: Call) -> Option<(Group, Clock)> {
    match call.operation()? {
        Operation::Freeze { group, clock } => Some((group, clock)),
        _ => None,
    }
}

fn difference(ts: u64, clock: &Clock) -> Option<usize> {
    let (first, offset) = match ts {
        1 => (0, clock.virtual_offset),
        2 => (4, clock.guest_offset),
        _ => return None,
    };
    let above = match offset.checked_sub(clock.physical) {
        None => 0,
        Some(0) => 1,
        Some(1) => 2,
        Some(_) => 3,
    };
    Some(first + above)
}

/// The class of an answered freeze among [`NOT_FROZEN`], if one reason alone keeps it from happening.
pub fn of_none(state: &State, call: Call, number: u64) -> Option<usize> {
    match (call.code(), number) {
        (10, 4) => return Some(REFUSED),
        (10, 0) => {}
        _ => return None,
    }
    let (group, _) = freeze(call)?;
    let (own, other) = match group {
        Group::Zero => (state.cr1, state.cr2),
        Group::One => (state.cr2, state.cr1),
    };
    let (asked, by_other) = (own >> 8 & 1 == 1, other >> 8 & 1 == 1);
    let prohibited = Document01.prohibited(state, state.level);
    let reason = match (asked, prohibited, state.halted, state.paused()) {
        (false, false, false, false) => usize::from(by_other),
        (true, true, false, false) => 2,
        (true, false, true, false) => 3,
        (true, false, false, true) => 4,
        _ => return None,
    };
    Some(5 * group as usize + reason)
}

/// The class of an answered access to BRBTS_EL1 among [`ACCESSES`].
pub fn of_access(state: &State, call: Call, number: u64) -> Option<usize> {
    let Call([code, _, 4, ..]) = call else { return None };
    let level = state.level.number() as usize;
    match (code, number, level) {
        (5, 0, 1..) => Some(level - 1),
        (5, 100, 0) => Some(3),
        (5, 102, 1) => Some(4),
        (5, 103, 1 | 2) => Some(4 + level),
        (6, 100, _) => Some(7 + level),
        _ => None,
    }
}

/// The class of an answered operation among [`WHILE_FROZEN`], where it begins in the pause of a freeze.
pub fn while_frozen(before: &State, after: &State, call: Call, number: u64) -> Option<usize> {
    match call.code() {
        _ if is_refused(number) => None,
        0 => Some(RESET),
        10 => Some(OVERFLOW),
        _ if !after.paused() => Some(CLEARED),
        _ => not_recorded(before, call),
    }
}

/// The class of an event that is no record by PAUSED alone.
fn not_recorded(state: &State, call: Call) -> Option<usize> {
    let event = call.operation()?.event(Document01.begins(state))?;
    let running = State { fcr: state.fcr & !PAUSED, ..*state };
    Document01.shape(&running, &event)?;
    Some(match event.cause {
        Cause::Branch(_) => 0,
        Cause::Exception(_) => 1,
        Cause::Return => 2,
        Cause::Halt => 3,
        Cause::Resume => 4,
    })
}
