//! Programs that are run: the files that they read, their times and their memory.

use std::fs;
use std::io;
use std::path::{Path, PathBuf};
use std::process::{Child, Command, Stdio};
use std::time::{Duration, Instant};

/// Bytes in a file that lasts as long as this does.
pub struct Kept {
    pub file: PathBuf,
}

impl Kept {
    pub fn new(name: &str, bytes: &[u8]) -> io::Result<Kept> {
        let file = std::env::temp_dir().join(format!("brb-bench-{}-{name}.recording", std::process::id()));
        fs::write(&file, bytes)?;
        Ok(Kept { file })
    }
}

impl Drop for Kept {
    fn drop(&mut self) {
        let _ = fs::remove_file(&self.file);
    }
}

/// A program that reads these files.
pub fn command(program: &Path, files: &[&Kept], output: Stdio) -> Command {
    let mut command = Command::new(program);
    command.args(files.iter().map(|kept| &kept.file)).stdin(Stdio::null()).stdout(output);
    command
}

/// Seconds that a program takes, from its start to its end.
pub fn time_of(mut command: Command) -> io::Result<f64> {
    let start = Instant::now();
    let status = command.status()?;
    let time = start.elapsed().as_secs_f64();
    assert!(status.code().is_some(), "the program ended by {status}");
    Ok(time)
}

/// The most kilobytes that a process had in memory, looked at until it ends, in words.
pub fn peak_memory(mut child: Child) -> io::Result<String> {
    let status = format!("/proc/{}/status", child.id());
    let mut peak: Option<u64> = None;
    while child.try_wait()?.is_none() {
        let text = fs::read_to_string(&status).unwrap_or_default();
        let line = text.lines().find_map(|line| line.strip_prefix("VmHWM:"));
        let kilobytes = line.and_then(|line| line.trim().strip_suffix(" kB")?.parse().ok());
        peak = peak.max(kilobytes);
        std::thread::sleep(Duration::from_micros(200));
    }
    Ok(peak.map_or("it ended too soon to be seen".into(), |kilobytes| format!("{kilobytes} kB")))
}
