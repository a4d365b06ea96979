//! What the model's replay of a recording prints: the expected output of the samples comes from here.
//!
//!     cargo run --release -p model --example replay -- ../samples/night

use std::io::Write;
use std::process::ExitCode;

fn main() -> ExitCode {
    let files: Vec<String> = std::env::args().skip(1).collect();
    let [file] = files.as_slice() else {
        eprintln!("usage: replay FILE");
        return ExitCode::from(2);
    };
    match std::fs::read(file) {
        Err(error) => {
            eprintln!("replay: {file}: {error}");
            ExitCode::FAILURE
        }
        Ok(bytes) => match std::io::stdout().write_all(model::replay::text(&bytes).as_bytes()) {
            Ok(()) => ExitCode::SUCCESS,
            Err(_) => ExitCode::FAILURE,
        },
    }
}
