//! The consoles in the tables, and running their drivers.

use crate::harness::{Harness, Length};
use std::path::{Path, PathBuf};
use std::process::{Command, Output};

pub struct Peer {
    pub title: &'static str,
    /// The file of its driver, after `drv_`.
    file: &'static str,
    /// Its streams' ending: the console's own codes, or VT100's.
    codes: &'static str,
    /// Gets the short streams and few rounds.
    pub slow: bool,
    /// The library's driver once more, for the one-byte call alone.
    pub one_byte_call: bool,
}

/// A stream and the length of the pieces that it is fed in.
#[derive(Clone, Copy)]
pub struct Task<'a> {
    pub length: Length,
    pub name: &'a str,
    pub chunk: usize,
}

/// The plain C console, which the others are compared with, is the first.
const PEERS: [Peer; 9] = [
    peer("ref", "plain C console", "apple"),
    peer("refrun", "plain C console, run loop", "apple"),
    peer("ours", "Combthrift", "apple"),
    Peer { one_byte_call: true, ..peer("ours", "Combthrift, one-byte call", "apple") },
    peer("vt100", "vt100", "vt"),
    peer("alacritty", "alacritty_terminal", "vt"),
    peer("libtsm", "libtsm", "vt"),
    peer("libvterm", "libvterm", "vt"),
    Peer { slow: true, ..peer("pyte", "pyte (short streams)", "vt") },
];

const fn peer(file: &'static str, title: &'static str, codes: &'static str) -> Peer {
    Peer { title, file, codes, slow: false, one_byte_call: false }
}

/// Those that can be run, and the titles of those left out.
pub fn peers(harness: &Harness) -> (Vec<Peer>, Vec<&'static str>) {
    let (present, missing): (Vec<Peer>, Vec<Peer>) =
        PEERS.into_iter().partition(|peer| peer.program(harness).exists());
    (present, missing.iter().map(|peer| peer.title).collect())
}

impl Peer {
    fn program(&self, harness: &Harness) -> PathBuf {
        harness.program(&format!("drv_{}", self.file))
    }

    /// The streams that it is timed on.
    pub fn length(&self) -> Length {
        if self.slow {
            return Length::Short;
        }
        Length::Long
    }

    /// The nanoseconds of one round.
    pub fn time(&self, harness: &Harness, task: Task) -> Result<u64, String> {
        self.driver(harness).time(&self.stream(harness, task), 1, task.chunk)
    }

    pub fn dump(&self, harness: &Harness, task: Task) -> Result<Vec<String>, String> {
        self.driver(harness).dump(&self.stream(harness, task), task.chunk)
    }

    fn driver(&self, harness: &Harness) -> Driver {
        Driver { title: self.title.to_string(), program: self.program(harness) }
    }

    fn stream(&self, harness: &Harness, task: Task) -> PathBuf {
        harness.stream(task.length, task.name, self.codes)
    }
}

/// A console behind the command line that all of them have.
pub struct Driver {
    pub title: String,
    pub program: PathBuf,
}

impl Driver {
    /// The nanoseconds of the best of some rounds, all in one process.
    pub fn time(&self, stream: &Path, rounds: usize, chunk: usize) -> Result<u64, String> {
        let output = self.run(stream, rounds, chunk, &[])?;
        let times: Result<Vec<u64>, _> = output.split_whitespace().map(str::parse).collect();
        let best = times.ok().and_then(|times| times.into_iter().min());
        best.ok_or(format!("{} printed '{}'", self.title, output.trim()))
    }

    /// The 24 lines at the end, without the blanks at their ends.
    pub fn dump(&self, stream: &Path, chunk: usize) -> Result<Vec<String>, String> {
        let output = self.run(stream, 1, chunk, &["dump"])?;
        Ok(output.lines().map(|line| line.trim_end().to_string()).collect())
    }

    fn run(
        &self,
        stream: &Path,
        rounds: usize,
        chunk: usize,
        more: &[&str],
    ) -> Result<String, String> {
        let mut command = Command::new(&self.program);
        command.arg(stream).arg(rounds.to_string()).arg(chunk.to_string()).args(more);
        printed(&self.title, command.output())
    }
}

/// What a program printed, if it did not fail.
pub fn printed(title: &str, output: std::io::Result<Output>) -> Result<String, String> {
    let output = output.map_err(|error| format!("{}: {}", title, error))?;
    if !output.status.success() {
        let errors = String::from_utf8_lossy(&output.stderr).into_owned();
        return Err(format!("{} failed: {}", title, errors.trim()));
    }
    Ok(String::from_utf8_lossy(&output.stdout).into_owned())
}
