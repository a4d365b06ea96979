//! Seeds: given or taken from the clock, always printed.

use std::io::Write;
use std::time::{SystemTime, UNIX_EPOCH};

/// The environment variable that gives the tests their seed.
pub const VARIABLE: &str = "BRB_SEED";

/// A seed in decimal or, after 0x, in hex.
pub fn parse(text: &str) -> Option<u64> {
    match text.strip_prefix("0x") {
        Some(hex) => u64::from_str_radix(hex, 16).ok(),
        None => text.parse().ok(),
    }
}

/// A seed that no earlier run had.
pub fn from_clock() -> u64 {
    SystemTime::now().duration_since(UNIX_EPOCH).map_or(1, |since| since.as_nanos() as u64)
}

/// The seed of a test: the environment's, or else `other`. Prints it.
pub fn of_test(test: &str, other: impl FnOnce() -> u64) -> u64 {
    let seed = match std::env::var(VARIABLE) {
        Ok(text) => parse(&text).unwrap_or_else(|| panic!("{VARIABLE}={text} is not a 64-bit number")),
        Err(_) => other(),
    };
    say(&format!("{test}: seed {seed} ({VARIABLE}={seed} repeats it)"));
    seed
}

/// A line on standard output that the test harness does not hold back.
pub fn say(line: &str) {
    let mut output = std::io::stdout().lock();
    // A test does not fail because nobody reads its output.
    let _ = writeln!(output, "{line}");
}
