//! Where two recordings part (document 02, request Eight; `docs/MANUAL.md`, "Comparing recordings"): the library's comparison
//! beside the model's, beside the library's single reads, with the two swapped, and of each recording with itself.

mod case;
mod classes;
mod comparing;
mod make;
pub mod run;
mod walk;

pub use case::Pair;
pub use classes::Classes;
pub use comparing::{Comparing, Numbers};
pub use make::Maker;
pub use walk::Walk;
