//! The recording that the model makes of a text: the recordings of the samples can be made from here.
//!
//!     cargo run --release -p model --example pack -- ../samples/today.txt > ../samples/today

use model::{Document01, Notation};
use std::io::Write;
use std::process::ExitCode;

fn main() -> ExitCode {
    let files: Vec<String> = std::env::args().skip(1).collect();
    let [file] = files.as_slice() else {
        eprintln!("usage: pack FILE");
        return ExitCode::from(2);
    };
    let text = match std::fs::read(file) {
        Ok(text) => text,
        Err(error) => {
            eprintln!("pack: {file}: {error}");
            return ExitCode::FAILURE;
        }
    };
    let packed = Document01.pack(&text);
    if let Some(line) = packed.wrong {
        eprintln!("pack: {file}: line {line} is wrong");
        return ExitCode::FAILURE;
    }
    match std::io::stdout().write_all(&packed.bytes) {
        Ok(()) => ExitCode::SUCCESS,
        Err(_) => ExitCode::FAILURE,
    }
}
