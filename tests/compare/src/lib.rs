//! The proved library and the Rust model beside each other: every answer, every state number and every room number is
//! compared, on sequences from a fresh state and on single calls with any state and room. [`recording`] does the same with
//! recordings, [`batch`] with runs of recorded operations in one call, [`parting`] with two recordings that are compared with
//! each other, [`sums`] with counts added up by their encodings, and [`programs`] runs the programs of `target/bin`. [`demand3`]
//! and [`shifted`] watch one engine alone.
//!
//! A case that disagrees is shrunk ([`shrink`]) and printed as numbers in document 01's written form.

pub mod batch;
pub mod call;
pub mod demand3;
pub mod engine;
mod freezes;
pub mod generate;
mod halts;
pub mod parting;
pub mod planted;
pub mod programs;
pub mod random;
pub mod recording;
pub mod run;
pub mod seed;
pub mod sequence;
pub mod shares;
pub mod shifted;
pub mod shrink;
pub mod since;
pub mod single;
pub mod starts;
pub mod sums;
pub mod watch;

pub use call::Call;
pub use engine::{Engine, Library, Modelled};
pub use random::Random;
pub use sequence::Sequence;
pub use shares::Shares;
pub use shrink::Case;
pub use since::Since;
pub use single::Single;
