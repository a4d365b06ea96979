//! What came since the last record of a sequence, as far as BRB IALL, halts and freezes go: a record does not say by itself why
//! its count is unknown, nor PAUSED what set it.

use crate::engine::is_refused;
use crate::shares::{KNOWN, UNKNOWN};
use crate::{freezes, Call};
use model::{Cause, Document01, Rules, State};

/// The BRB IALLs, the operations that began halted and the freezes since the last record.
#[derive(Clone, Copy, Debug, Default)]
pub struct Since {
    /// A BRB IALL was performed, and nothing else was an occasion.
    performed_alone: bool,
    trapped: bool,
    undefined: bool,
    /// An operation began halted, where the level alone would not have been prohibited, and nothing else was an occasion.
    halted_alone: bool,
    /// The last record is a resume's.
    after_resume: bool,
    /// A freeze happened, and PAUSED has been 1 since then.
    frozen: bool,
    /// A write cleared PAUSED after a freeze, and nothing else was an occasion.
    cleared_alone: bool,
}

impl Since {
    /// Nothing yet, after a record of this cause.
    pub fn record(cause: Cause) -> Since {
        Since { after_resume: cause == Cause::Resume, ..Since::default() }
    }

    /// Notes an answered operation, by the states before and after it.
    pub fn note(&mut self, before: &[u64], after: &[u64], call: Call, number: u64) {
        let (Some(before), Some(after)) = (Document01.sound(before), Document01.sound(after)) else { return };
        match (call.code(), number) {
            // A refused operation changes nothing.
            _ if is_refused(number) => {}
            (0, _) => *self = Since::default(),
            (code, _) => {
                self.undefined |= (code, number) == (7, 100);
                self.trapped |= code == 7 && matches!(number, 102 | 103);
                self.note_occasions(&before, &after, (code, number) == (7, 0));
                self.frozen = after.paused() && (self.frozen || code == 10 && !before.paused());
            }
        }
    }

    fn note_occasions(&mut self, before: &State, after: &State, performed_iall: bool) {
        // Whatever was an occasion before it has set the flag.
        self.performed_alone |= performed_iall && !before.unknown;
        self.halted_alone |= before.halted && !before.unknown;
        let cleared = self.frozen && !after.paused();
        self.cleared_alone |= cleared && !before.unknown;
        let written = Document01.write_is_occasion(before, after);
        let prohibited = Document01.began_prohibited(before);
        self.performed_alone &= !written && !prohibited;
        self.halted_alone &= !written && !performed_iall && !Document01.prohibited(before, before.level);
        self.cleared_alone &= (cleared || !written) && !performed_iall && !prohibited;
    }

    /// The class of a record that an event made in a state, with a count of this class: unknown by a performed BRB IALL
    /// alone, counting being on, or known after one that trapped or was undefined.
    pub fn class(&self, state: &[u64], count: usize) -> Option<usize> {
        match count {
            UNKNOWN if self.performed_alone && counting(state) => Some(0),
            KNOWN if self.trapped => Some(1),
            KNOWN if self.undefined => Some(2),
            _ => None,
        }
    }

    /// The same by halts: the known count of a halt's own record, a resume's that is unknown by the resume alone, one that is
    /// unknown by what else began halted alone, and a known one after a resume's record.
    pub fn halt_class(&self, state: &[u64], cause: Cause, count: usize) -> Option<usize> {
        match (count, cause) {
            (KNOWN, Cause::Halt) => Some(0),
            (UNKNOWN, Cause::Resume) if self.halted_alone && counting(state) && state[8] == 0 => Some(1),
            (UNKNOWN, _) if self.halted_alone && counting(state) => Some(2),
            (KNOWN, _) if self.after_resume => Some(3),
            _ => None,
        }
    }

    /// The same by freezes: unknown by a write that cleared PAUSED after one alone.
    pub fn freeze_class(&self, state: &[u64], count: usize) -> Option<usize> {
        (count == UNKNOWN && self.cleared_alone && counting(state)).then_some(freezes::UNKNOWN_AFTER)
    }

    /// The class of an answered operation that began in the pause of a freeze, before it is noted.
    pub fn frozen_class(&self, before: &[u64], after: &[u64], call: Call, number: u64) -> Option<usize> {
        let (before, after) = (Document01.sound(before)?, Document01.sound(after)?);
        self.frozen.then(|| freezes::while_frozen(&before, &after, call, number)).flatten()
    }
}

/// Whether counting is on in a state.
fn counting(state: &[u64]) -> bool {
    state[4] & state[5] & 8 != 0
}
