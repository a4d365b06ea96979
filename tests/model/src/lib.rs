//! Document 01 a second time, in plain Rust: one processor's branch record buffer, operation by operation.
//!
//! It is written from document 01, the requests of document 02 that have landed, the page that plans them,
//! `docs/DECISIONS.md` and, for what is lent, `include/brb.h` alone, so that the proved library has something independent to be compared with. [`Rules`] holds one
//! method a rule, in the document's order; [`Document01`] is the document as it stands with these requests. [`Recordings`]
//! does the same for recordings, [`Batches`] for a run of recorded operations in one call, [`Comparisons`] for where two
//! recordings part, [`Counts`] for the spread of a count and the sums of such, and [`Lines`], [`Notation`] and [`Findings`] for
//! what the programs `list`, `pack` and `compare` print and read, which `docs/MANUAL.md` says. A test that wants to know whether
//! an error would be found overrides one method.
//!
//! ```
//! use model::{Answer, Document01, Rules, State};
//!
//! let (mut state, mut room) = ([0; State::NUMBERS], [0; 24]);
//! assert_eq!(Document01.step(&mut state, &mut room, [0, 0, 8, 0, 0, 0]), Answer::Done);
//! assert_eq!(Document01.step(&mut state, &mut room, [5, 0, 0, 0, 0, 0]), Answer::Read(0x5008));
//! ```

mod access;
mod answer;
mod bank;
pub mod batch;
pub mod comparison;
pub mod count;
mod event;
pub mod findings;
mod freeze;
mod level;
pub mod lines;
pub mod notation;
mod operation;
mod platform;
pub mod recording;
pub mod replay;
pub mod room;
mod rules;
#[cfg(test)]
mod s1;
mod state;

pub use access::{Access, Outcome};
pub use answer::{Answer, Refusal};
pub use bank::Asked;
pub use batch::Batches;
pub use comparison::Comparisons;
pub use count::Counts;
pub use event::{Cause, Event, Record, Shape, Side};
pub use findings::Findings;
pub use freeze::{ts, Clock, Group};
pub use level::Level;
pub use lines::Lines;
pub use notation::Notation;
pub use operation::{exception_type, own_fields, BranchType, Operation, Part, Register, EXCEPTION_TYPES, LAST_CODE};
pub use platform::Platform;
pub use recording::Recordings;
pub use rules::{Document01, Rules};
pub use state::{buffer_size, State, CONTROL_MASK, FILTER_MASK, PAUSED};

/// Whether bit `n` of a number is 1.
pub(crate) fn bit(number: u64, n: u32) -> bool {
    number >> n & 1 == 1
}

/// A flag: 0 or 1, nothing else.
pub(crate) fn flag(number: u64) -> Option<bool> {
    match number {
        0 => Some(false),
        1 => Some(true),
        _ => None,
    }
}
