use crate::seed::say;
use std::fs::{self, File};
use std::io::{ErrorKind, Write};
use std::path::{Path, PathBuf};
use std::process::{ChildStdin, Command, Output, Stdio};
use std::thread;

/// A program of `target/bin`, and a file of its own for what it reads.
pub struct Program {
    path: PathBuf,
    file: PathBuf,
}

/// How a program gets its input.
#[derive(Clone, Debug)]
pub enum Way {
    /// As a file that is named.
    File,
    /// As standard input, all of it there from the start.
    Input,
    /// As standard input that comes in pieces of these lengths, over and over.
    Pieces(Vec<usize>),
}

/// A file or a folder of the repository.
pub(super) fn in_repository(name: &str) -> PathBuf {
    Path::new(env!("CARGO_MANIFEST_DIR")).join("../..").join(name)
}

/// Where a program stands; none, with a line that says so, where it is not built.
pub(super) fn built(program: &str, test: &str) -> Option<PathBuf> {
    let path = in_repository("target/bin").join(program);
    if !path.is_file() {
        say(&format!("{test}: skipped, the program target/bin/{program} is not built"));
        return None;
    }
    Some(path)
}

impl Program {
    /// The program for a test of this name, with its file in `folder`; none, with a line that says so, where it is not
    /// built.
    pub fn of_test(program: &str, test: &str, folder: &str) -> Option<Program> {
        let path = built(program, test)?;
        let file = Path::new(folder).join(format!("{}.{program}", test.replace(' ', "-")));
        Some(Program { path, file })
    }

    /// Where the last input that came as a file is kept.
    pub fn file(&self) -> &Path {
        &self.file
    }

    /// What it prints with these options for an input. It must end by itself.
    pub fn run(&self, options: &[&str], bytes: &[u8], way: &Way) -> Output {
        let mut command = Command::new(&self.path);
        command.args(options);
        let output = match way {
            Way::File => self.of_file(&mut command, bytes),
            Way::Input => self.of_input(&mut command, bytes),
            Way::Pieces(lengths) => of_pieces(&mut command, bytes, lengths),
        };
        let errors = String::from_utf8_lossy(&output.stderr);
        assert!(output.status.code().is_some(), "{way:?}: the program ended by {}: {errors}", output.status);
        output
    }

    fn of_file(&self, command: &mut Command, bytes: &[u8]) -> Output {
        fs::write(&self.file, bytes).expect("a temporary file can be written");
        command.arg(&self.file).stdin(Stdio::null()).output().expect("the program runs")
    }

    fn of_input(&self, command: &mut Command, bytes: &[u8]) -> Output {
        fs::write(&self.file, bytes).expect("a temporary file can be written");
        let input = File::open(&self.file).expect("the temporary file can be read");
        command.arg("-").stdin(input).output().expect("the program runs")
    }
}

impl Drop for Program {
    fn drop(&mut self) {
        // An input on which the two differ stays for a look.
        if !thread::panicking() {
            let _ = fs::remove_file(&self.file);
        }
    }
}

/// What a program prints whose standard input comes in pieces of these lengths, over and over.
pub(super) fn of_pieces(command: &mut Command, bytes: &[u8], lengths: &[usize]) -> Output {
    command.stdin(Stdio::piped()).stdout(Stdio::piped()).stderr(Stdio::piped());
    let mut child = command.spawn().expect("the program runs");
    let input = child.stdin.take().expect("standard input is a pipe");
    thread::scope(|scope| {
        scope.spawn(move || write_pieces(input, bytes, lengths));
        child.wait_with_output().expect("the program ends")
    })
}

fn write_pieces(mut input: ChildStdin, mut rest: &[u8], lengths: &[usize]) {
    let mut lengths = lengths.iter().cycle();
    while !rest.is_empty() {
        let (piece, others) = rest.split_at(rest.len().min(*lengths.next().expect("there is a length")));
        match input.write_all(piece) {
            // It stops at what is wrong.
            Err(error) if error.kind() == ErrorKind::BrokenPipe => return,
            written => written.expect("the program takes its input"),
        }
        rest = others;
    }
}
