//! A proved model of one processor's Arm branch record buffer, from Rust: a safe face of `include/brb.h`. The model's
//! manual, `docs/MANUAL.md` of its repository, says what each operation does.
//!
//! The library keeps nothing between calls. The caller lends it the state (twelve numbers) and the room (three numbers a
//! record, newest first); each call changes them in place or, where it refuses, leaves every number as it was.
//! [`Recorder`] holds the two together, owned or borrowed; [`step`] and [`read`] take them from anywhere. Recordings are
//! read and written with [`recording_read`] and [`recording_write`], and stepped along with [`step_recorded`], one operation
//! a call, or with [`batch()`], a whole run of them in one call; [`compare()`] tells where two of them part. [`bank_inf`], [`bank_source`] and [`bank_target`] look at
//! records without an operation. [`Inf`] takes BRBINF apart. [`decoded`] says between which two counts the count of a
//! record lies, and [`count_sum`] the same of the sum of many.
//!
//! Building needs the archive `libbrb.a`: the environment variable `BRB_ARCHIVE` names the folder that holds it, as an
//! absolute path. The archive is for Linux on x86-64.
//!
//! ```
//! use brb::{Count, Inf, Operation, Outcome, Recorder};
//!
//! let mut recorder = Recorder::new();
//! recorder.step(Operation::reset(8, false));
//! recorder.step(Operation::platform(0, brb::P_NS | brb::p_sbrbe_is(3)));
//! recorder.step(Operation::write(0, brb::REGISTER_BRBCR_EL1, brb::CONTROL_E1BRE | brb::CONTROL_CC));
//! recorder.step(Operation::write(0, brb::REGISTER_BRBCR_EL2, brb::CONTROL_CC));
//! recorder.step(Operation::write(0, brb::REGISTER_BRBFCR_EL1, brb::FILTER_ENI)); // all branch types
//! recorder.step(Operation::exception_return(0, brb::LEVEL_EL1, false, 0x80, 0x1000));
//! recorder.step(Operation::branch(300, brb::TYPE_DIRECT, false, 0x1004, 0x1010));
//! recorder.step(Operation::branch(300, brb::TYPE_CONDDIR, true, 0x1010, 0x1000));
//! assert_eq!(recorder.read(0, brb::register_brbinf(0)).outcome(), Outcome::Done(0x0000_012c_0000_0843));
//! assert_eq!(recorder.records().count(), 8);
//! let [inf, source, target] = recorder.records().next().unwrap();
//! assert_eq!((source, target), (0x1010, 0x1000));
//! assert_eq!(Inf::of(inf).count(), Some(Count::Known { low: 300, high: 300 }));
//! ```
#![deny(unsafe_op_in_unsafe_fn)]
#![deny(missing_docs)]

mod answer;
mod bank;
mod batch;
mod c;
mod compare;
mod constants;
mod count;
mod inf;
mod operation;
mod recorder;
mod recording;
mod step;

pub use answer::{Answer, Outcome, Recorded, Spread};
pub use bank::{bank_inf, bank_source, bank_target};
pub use batch::batch;
pub use compare::{compare, Parting};
pub use constants::*;
pub use count::{count_decode, count_encode, count_sum, decoded, Count};
pub use inf::Inf;
pub use operation::Operation;
pub use recorder::Recorder;
pub use recording::{operation_at, recording_read, recording_write, step_recorded};
pub use step::{read, step};
