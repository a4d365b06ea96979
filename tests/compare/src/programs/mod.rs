//! The programs of `target/bin` beside the model. They are built with the proofs; where one is not there, its tests say so
//! and pass.

pub mod across;
pub mod bad;
mod compared;
mod comparer;
pub mod edges;
mod listed;
pub mod message;
mod packed;
pub mod planted;
mod program;
pub mod spelling;
pub mod wrong;

pub use compared::Compared;
pub use comparer::{By, Comparer, Given};
pub use listed::Listed;
pub use packed::Packed;
pub use program::{Program, Way};

use crate::shrink::{shrink, with_part_dropped};
use crate::{Case, Random};

/// A program that reads in pieces has a piece's end here.
pub const PIECE: usize = 65_536;

/// Lengths of pieces in which input comes: one byte each, any, or all at once.
pub fn pieces(random: &mut Random, length: usize) -> Way {
    Way::Pieces(match random.below(4) {
        0 if length < 500 => vec![1],
        1 => vec![usize::MAX],
        _ => (0..8).map(|_| 1 + random.of_length(17) as usize).collect(),
    })
}

/// The first line in which what a program prints differs from what a model prints; none where nothing differs.
pub fn first_difference(printed: &[u8], expected: &[u8]) -> Option<String> {
    let [printed, expected] = [printed, expected].map(|text| text.split_inclusive(|&byte| byte == b'\n'));
    let lines = printed.map(Some).chain([None]).zip(expected.map(Some).chain([None])).enumerate();
    let mut different = lines.filter(|(_, (printed, expected))| printed != expected);
    different.next().map(|(line, (printed, expected))| {
        let shown =
            |text: Option<&[u8]>| text.map(String::from_utf8_lossy).map_or("nothing".into(), |t| format!("{t:?}"));
        format!("line {}: program {}, model {}", line + 1, shown(printed), shown(expected))
    })
}

/// Every way of getting an input, with pieces for one of this length.
pub fn every_way(random: &mut Random, length: usize) -> [Way; 3] {
    [Way::File, Way::Input, pieces(random, length)]
}

/// The shrunk case and how the program and the model differ on it; none where they agree.
pub fn disagreement<C: Case>(case: C, how: impl Fn(&C) -> Option<String>) -> Option<String> {
    how(&case)?;
    let shrunk = shrink(case, |simpler| how(simpler).is_some());
    let how = how(&shrunk).unwrap_or_default();
    Some(format!("{shrunk}\n  {how}"))
}

/// How many simpler cases are tried of one: each is a run of the program, and the boldest come first.
const TRIED: usize = 64;

/// An input that is made of chunks, with some of them taken out.
fn with_chunks_dropped(chunks: &[&[u8]]) -> Vec<Vec<u8>> {
    with_part_dropped(chunks).take(TRIED).map(|chunks| chunks.concat()).collect()
}
