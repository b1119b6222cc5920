//! Instructions by valgrind. They do not depend on the machine's load.

use crate::drivers::printed;
use crate::feed::Feed;
use crate::script::{self, one_byte_writes, room};
use crate::table::{number, Table};
use crate::workloads::{all, by_client, Workload};
use std::fs::{create_dir_all, write};
use std::path::Path;
use std::process::Command;

/// Counting is some fifty times slower than running.
const BYTES: usize = 1 << 16;
const SCROLLS: usize = 20_000;

/// A driver to count, and what its command line calls the one-byte call:
/// a console without one gets writes of one byte.
struct Side<'a> {
    title: &'a str,
    driver: &'a str,
    one_byte_call: usize,
}

/// The calls by client alone, with nothing counted.
pub fn check() -> Result<(), String> {
    script::check(&by_client(BYTES).stream)
}

pub fn run(folder: &str, ours: &str, plain_c: Option<&str>) -> Result<(), String> {
    let mut sides = vec![Side { title: "Combthrift", driver: ours, one_byte_call: 0 }];
    if let Some(driver) = plain_c {
        sides.push(Side { title: "plain C console", driver, one_byte_call: 1 });
    }
    let folder = Path::new(folder);
    let heads = heads(&sides);
    let mut table = Table::new(&heads);
    for workload in all(BYTES, SCROLLS) {
        let counts: Result<Vec<f64>, String> =
            sides.iter().map(|side| side.count(folder, &workload)).collect();
        table.add(&row(&workload, &counts?, heads.len()));
    }
    let workload = by_client(BYTES);
    let count = sides[0].count_by_client(folder, &workload.stream)?;
    table.add(&row(&workload, &[count], heads.len()));
    println!(
        "Instructions by valgrind's callgrind, one round of each workload less one round \
         of an empty stream, so that starting the program does not count. A call by client \
         copies the screen, 1,920 bytes, and the marks of all slots into its answer: that \
         is counted with it."
    );
    table.print("Instructions");
    Ok(())
}

fn heads(sides: &[Side]) -> Vec<String> {
    let mut heads = vec![String::new(), "unit".to_string()];
    for side in sides {
        heads.push(format!("{}, a byte", side.title));
        heads.push("a unit".to_string());
    }
    if sides.len() > 1 {
        heads.push("ratio".to_string());
    }
    heads
}

/// A side without such a call has no count, and `-` in its cells.
fn row(workload: &Workload, counts: &[f64], columns: usize) -> Vec<String> {
    let mut cells = vec![workload.name.clone(), workload.unit.clone()];
    for count in counts {
        cells.push(number(count / workload.stream.len() as f64));
        cells.push(number(count / workload.count as f64));
    }
    if let [ours, plain_c] = counts[..] {
        cells.push(number(ours / plain_c));
    }
    cells.resize(columns, "-".to_string());
    cells
}

impl Side<'_> {
    fn count(&self, folder: &Path, workload: &Workload) -> Result<f64, String> {
        let chunk = match workload.feed {
            Feed::Writes(size) => size,
            Feed::Bytes => self.one_byte_call,
        };
        let arguments = ["1", &chunk.to_string()];
        let stream = self.instructions(folder, &workload.stream, &arguments)?;
        let start = self.instructions(folder, &[], &arguments)?;
        Ok(stream - start)
    }

    /// Less the opening alone, with the same room for answers.
    fn count_by_client(&self, folder: &Path, stream: &[u8]) -> Result<f64, String> {
        script::check(stream)?;
        let arguments = [&room(stream).to_string()[..]];
        let calls = self.instructions(folder, &one_byte_writes(stream), &arguments)?;
        let start = self.instructions(folder, &one_byte_writes(&[]), &arguments)?;
        Ok(calls - start)
    }

    fn instructions(&self, folder: &Path, input: &[u8], more: &[&str]) -> Result<f64, String> {
        let path = folder.join("counted.apple");
        create_dir_all(folder)
            .and_then(|_| write(&path, input))
            .map_err(|error| format!("{}: {}", path.display(), error))?;
        let mut command = Command::new("valgrind");
        command.args(["--tool=callgrind", "--callgrind-out-file=/dev/null", "--log-fd=1"]);
        let text = printed("valgrind", command.arg(self.driver).arg(&path).args(more).output())?;
        collected(&text).ok_or(format!("valgrind counted nothing: {}", text))
    }
}

/// The number in the line `==PID== Collected : NUMBER`.
fn collected(text: &str) -> Option<f64> {
    let line = text.lines().find(|line| line.contains("Collected :"))?;
    line.rsplit(':').next()?.trim().parse().ok()
}
