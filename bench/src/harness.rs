//! What the harness left in its output folder: drivers and streams.

use crate::workloads::{Workload, PAGE};
use std::path::PathBuf;

/// Long streams are timed; short ones serve the slow sides and checks.
#[derive(Clone, Copy)]
pub enum Length {
    Long,
    Short,
}

/// The stream that is fed in small pieces too, and their lengths.
pub const LINES: &str = "a_lines";
pub const SMALL_PIECES: [usize; 2] = [1, 16];

/// What a line of `units` tells of a stream.
pub struct Units {
    pub name: String,
    pub unit: String,
    pub count: usize,
}

pub struct Harness {
    folder: PathBuf,
}

impl Harness {
    pub fn new(folder: &str) -> Harness {
        Harness { folder: PathBuf::from(folder) }
    }

    pub fn program(&self, name: &str) -> PathBuf {
        self.folder.join("bin").join(name)
    }

    pub fn stream(&self, length: Length, name: &str, codes: &str) -> PathBuf {
        self.folder.join(directory(length)).join(format!("{}.{}", name, codes))
    }

    pub fn units(&self, length: Length) -> Result<Vec<Units>, String> {
        let path = self.folder.join(directory(length)).join("units");
        let text = std::fs::read_to_string(&path)
            .map_err(|error| format!("{}: {}", path.display(), error))?;
        text.lines()
            .map(|line| units_of(line).ok_or(format!("{}: '{}'?", path.display(), line)))
            .collect()
    }

    pub fn count(&self, length: Length, name: &str) -> Result<f64, String> {
        let units = self.units(length)?;
        let found = units.iter().find(|units| units.name == name);
        found.map(|units| units.count as f64).ok_or(format!("there is no stream {}", name))
    }

    /// The long streams in the console's own codes.
    pub fn workloads(&self) -> Result<Vec<Workload>, String> {
        self.units(Length::Long)?.into_iter().map(|units| self.workload(units)).collect()
    }

    fn workload(&self, units: Units) -> Result<Workload, String> {
        let path = self.stream(Length::Long, &units.name, "apple");
        let stream =
            std::fs::read(&path).map_err(|error| format!("{}: {}", path.display(), error))?;
        let Units { name, unit, count } = units;
        Ok(Workload { name, unit, count, stream, feed: PAGE })
    }
}

fn directory(length: Length) -> &'static str {
    match length {
        Length::Long => "long",
        Length::Short => "short",
    }
}

/// A line is the name, the unit, how many there are, and more.
fn units_of(line: &str) -> Option<Units> {
    let mut words = line.split_whitespace();
    let name = words.next()?.to_string();
    let unit = words.next()?.to_string();
    let count = words.next()?.parse().ok()?;
    Some(Units { name, unit, count })
}
