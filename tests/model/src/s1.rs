//! Session S1 of document 01, for the tests of replays and batches.

use crate::{Document01, Recordings};

pub const S1: &str = "0 0 8 0 / 4 0 49 / 6 0 1 10 / 6 0 2 8 / 6 0 3 65536 / 3 0 1 0 128 4096 / 1 300 0 0 4100 4112 / \
                      1 300 8 1 4112 4096 / 5 0 32 / 5 0 33 / 5 0 64 / 5 0 2";

/// The bytes of numbers in document 01's written form.
pub fn bytes(numbers: &str) -> Vec<u8> {
    let numbers = numbers.split([' ', '/']).filter(|number| !number.is_empty());
    numbers.flat_map(|number| Document01.number_bytes(number.parse().unwrap())).collect()
}
