//! Sums of counts by their encodings (document 02, request Four; `docs/MANUAL.md`, "The spread of a count"): the library's
//! sum of a run beside the model's, beside the library's sums of the run in two parts, and beside what the library decodes.

mod case;
mod classes;
mod counting;
mod make;
pub mod run;

pub use case::LentRun;
pub use classes::Classes;
pub use counting::{Counting, Numbers};
