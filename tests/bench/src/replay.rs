//! The time of the replay program on a file, start and end of the process included, beside the model's replay of the same
//! file in this process, and the program's peak memory.

use crate::branches::{self, set_up, Numbers};
use crate::process::{command, peak_memory, time_of, Kept};
use crate::{median, Options};
use model::{replay, Document01, Recordings};
use std::fs;
use std::path::Path;
use std::process::{Command, Stdio};
use std::time::Instant;

/// How many operations the timed recording has.
const OPERATIONS: usize = 1_000_000;
/// How many bytes the recordings have on which memory is measured: what does not grow with them is the program's own.
const LENGTHS: [usize; 2] = [1_000_000, 10_000_000];

/// A recording in a file.
struct Recording {
    kept: Kept,
    bytes: usize,
    reads: usize,
}

impl Recording {
    /// What sets up a buffer of 64, then recorded branches and some reads of their records, until `enough` of operations and
    /// bytes.
    fn made(name: &str, branches: &[Numbers], enough: impl Fn(usize, usize) -> bool) -> std::io::Result<Recording> {
        let (mut bytes, mut operations, mut reads) = (Vec::new(), 0, 0);
        for numbers in set_up(64).into_iter().chain(branches::with_reads(branches)) {
            if enough(operations, bytes.len()) {
                break;
            }
            bytes.extend(Document01.operation_bytes(numbers).expect("a known code"));
            operations += 1;
            reads += usize::from(numbers[0] == 5);
        }
        Ok(Recording { kept: Kept::new(name, &bytes)?, bytes: bytes.len(), reads })
    }
}

fn program(path: &Path, recording: &Recording, output: Stdio) -> Command {
    command(path, &[&recording.kept], output)
}

/// Seconds that the model takes to read the file and to make its lines.
fn time_of_model(recording: &Recording) -> std::io::Result<f64> {
    let start = Instant::now();
    let text = replay::text(&fs::read(&recording.kept.file)?);
    let time = start.elapsed().as_secs_f64();
    assert_eq!(text.lines().count(), recording.reads, "a line a read");
    Ok(time)
}

fn report_time(path: &Path, kind: &str, branches: &[Numbers], rounds: usize) -> std::io::Result<()> {
    let recording = Recording::made("time", branches, |operations, _| operations == OPERATIONS)?;
    let printed = program(path, &recording, Stdio::piped()).output()?.stdout;
    assert!(
        printed == replay::text(&fs::read(&recording.kept.file)?).as_bytes(),
        "the program prints what the model prints"
    );
    let mut times = Vec::new();
    for _ in 0..rounds {
        times.push((time_of(program(path, &recording, Stdio::null()))?, time_of_model(&recording)?));
    }
    let (program, model) = (median(times.iter().map(|time| time.0)), median(times.iter().map(|time| time.1)));
    let ratio = median(times.iter().map(|(program, model)| program / model));
    println!("replay of {OPERATIONS} operations ({} bytes), {kind}, medians of {rounds} rounds:", recording.bytes);
    println!("  program {:6.1} ms, model {:6.1} ms, ratio {ratio:.2}", program * 1e3, model * 1e3);
    Ok(())
}

fn report_memory(path: &Path, branches: &[Numbers]) -> std::io::Result<()> {
    println!("peak memory of a replay:");
    for length in LENGTHS {
        let recording = Recording::made("memory", branches, |_, bytes| bytes >= length)?;
        let memory = peak_memory(program(path, &recording, Stdio::null()).spawn()?)?;
        println!("  on {} bytes: {memory}", recording.bytes);
    }
    Ok(())
}

/// The program's time beside the model's, and its peak memory; a line that says so where it is not built.
pub fn report(options: &Options) -> std::io::Result<()> {
    let path = &options.program;
    if !path.is_file() {
        println!("replay: skipped, there is no program {}", path.display());
        return Ok(());
    }
    let kinds = branches::kinds();
    for (kind, branches) in &kinds {
        report_time(path, kind, branches, options.rounds)?;
    }
    report_memory(path, &kinds[0].1)
}
