use super::program::{built, in_repository, of_pieces};
use model::comparison::Which;
use std::fs;
use std::path::{Path, PathBuf};
use std::process::{Command, Output, Stdio};
use std::thread;

/// The program that compares two recordings, `target/bin/compare_main`, and files of its own for what it reads.
pub struct Comparer {
    program: PathBuf,
    files: [PathBuf; 2],
}

/// What runs the program.
#[derive(Clone, Copy, Debug, PartialEq, Eq)]
pub enum By {
    /// Its own file, which has no status to answer.
    Itself,
    /// `./brb compare`, whose status it is.
    Launcher,
}

/// How the program gets two recordings.
#[derive(Clone, Debug)]
pub enum Given {
    /// As files that are named.
    Files,
    /// One of them as standard input that comes in pieces of these lengths, over and over, and the other as a file.
    Input(Which, Vec<usize>),
}

impl Given {
    /// Whether this one comes as standard input.
    fn is_input(&self, of: Which) -> bool {
        matches!(self, Given::Input(which, _) if *which == of)
    }
}

impl Comparer {
    /// The program for a test of this name, with its files in `folder`; none, with a line that says so, where it is not built.
    pub fn of_test(test: &str, folder: &str) -> Option<Comparer> {
        let program = built("compare_main", test)?;
        let files =
            ["first", "second"].map(|file| Path::new(folder).join(format!("{}.{file}", test.replace(' ', "-"))));
        Some(Comparer { program, files })
    }

    /// How a message names each of the two.
    pub fn names(&self, given: &Given) -> [String; 2] {
        Which::BOTH.map(|which| match given.is_input(which) {
            true => "standard input".into(),
            false => which.of(self.files.each_ref()).display().to_string(),
        })
    }

    /// What it prints with these options for two recordings. It must end by itself.
    pub fn run(&self, by: By, options: &[&str], bytes: [&[u8]; 2], given: &Given) -> Output {
        let mut command = self.command(by);
        command.args(options);
        for which in Which::BOTH {
            if given.is_input(which) {
                command.arg("-");
            } else {
                let file = which.of(self.files.each_ref());
                fs::write(file, which.of(bytes)).expect("a temporary file can be written");
                command.arg(file);
            }
        }
        let output = match given {
            Given::Files => command.stdin(Stdio::null()).output().expect("the program runs"),
            Given::Input(which, lengths) => of_pieces(&mut command, which.of(bytes), lengths),
        };
        let errors = String::from_utf8_lossy(&output.stderr);
        assert!(output.status.code().is_some(), "{given:?}: the program ended by {}: {errors}", output.status);
        output
    }

    fn command(&self, by: By) -> Command {
        match by {
            By::Itself => Command::new(&self.program),
            By::Launcher => {
                let mut command = Command::new(in_repository("brb"));
                command.arg("compare");
                command
            }
        }
    }
}

impl Drop for Comparer {
    fn drop(&mut self) {
        // Recordings on which the two differ stay for a look.
        if !thread::panicking() {
            self.files.iter().for_each(|file| drop(fs::remove_file(file)));
        }
    }
}
