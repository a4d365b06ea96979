//! Runs of recorded operations in one call (document 02, request Two; `docs/MANUAL.md`, "Batches"): the library's batch beside
//! the model's, beside the library's single calls, and beside two batches of the run in two parts.

mod batching;
mod case;
mod classes;
pub(crate) mod ends;
mod left;
mod make;
pub mod run;
mod singles;

pub use batching::Batching;
pub use case::Batch;
pub use classes::Classes;
pub use left::Left;
pub use singles::Singles;
