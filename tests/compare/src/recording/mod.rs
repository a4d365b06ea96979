//! Recordings beside each other: operations written, read and stepped by both, on sound and on damaged bytes.

pub mod classes;
pub mod damage;
pub mod make;
pub mod reading;
mod recorded;
pub mod run;
mod written;

pub use classes::Classes;
pub use make::Recording;
pub use reading::Reading;
pub use recorded::{Answered, Recorded};
pub use written::Written;

/// Bytes in hex, as document 01 prints them.
pub fn hex(bytes: &[u8]) -> String {
    let written: Vec<String> = bytes.iter().map(|byte| format!("{byte:02X}")).collect();
    written.join(" ")
}

/// The same bytes with one made smaller.
pub(crate) fn with_smaller_byte(bytes: &[u8]) -> impl Iterator<Item = Vec<u8>> + '_ {
    bytes.iter().enumerate().flat_map(move |(place, &byte)| {
        crate::shrink::smaller(u64::from(byte)).map(move |smaller| {
            let mut changed = bytes.to_vec();
            changed[place] = smaller as u8;
            changed
        })
    })
}
