//! What the model's comparison of two recordings prints, and its status: the expected output of the samples comes from here.
//!
//!     cargo run --release -p model --example compare -- ../samples/yesterday ../samples/today

use model::findings::Bad;
use model::lines::Form;
use model::{Document01, Findings};
use std::io::Write;
use std::process::ExitCode;

/// The status where something was wrong.
const WRONG: u8 = 2;

fn main() -> ExitCode {
    let arguments: Vec<String> = std::env::args().skip(1).collect();
    let (form, [first, second]) = match arguments.as_slice() {
        [option, first, second] if option == "--numbers" => (Form::Numbers, [first, second]),
        [first, second] => (Form::Readable, [first, second]),
        _ => {
            eprintln!("usage: compare [--numbers] FIRST SECOND");
            return ExitCode::from(WRONG);
        }
    };
    let status = match (read(first), read(second)) {
        (Some(one), Some(other)) => printed([first, second], [&one, &other], form),
        _ => WRONG,
    };
    ExitCode::from(status)
}

/// A file's bytes; none, with a line that says so, where it cannot be read.
fn read(file: &str) -> Option<Vec<u8>> {
    std::fs::read(file).map_err(|error| eprintln!("compare: {file}: {error}")).ok()
}

/// The status, once all is printed.
fn printed(names: [&str; 2], [first, second]: [&[u8]; 2], form: Form) -> u8 {
    let finding = Document01.found(first, second, form);
    if let Some(Bad { which, byte, operation }) = finding.bad {
        eprintln!("compare: {}: byte {byte} (the first is 0), operation {operation}", which.of(names));
    }
    match std::io::stdout().write_all(finding.text.as_bytes()) {
        Ok(()) => finding.status as u8,
        Err(_) => WRONG,
    }
}
