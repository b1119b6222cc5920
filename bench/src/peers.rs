//! The library beside other consoles, each behind a driver of its own
//! with the same command line, on the streams of the harness.

use crate::agreement;
use crate::check;
use crate::drivers::{peers, Peer, Task};
use crate::harness::{Harness, Length, LINES, SMALL_PIECES};
use crate::machine;
use crate::measure::{largest_spread, take_turns, Comparison, Side, Times};
use crate::table::{number, Table};
use crate::workloads::PAGE_SIZE;

/// Rounds of a slow console, and repeats of a short workload.
const FEW: usize = 3;

/// A workload, and the length of the pieces that it is fed in.
struct Column {
    name: String,
    unit: String,
    chunk: usize,
    repeats: usize,
}

/// What a column's rounds gave: the nanoseconds of one unit for each
/// console that took part, and the largest spread.
struct Timed {
    units: Vec<Option<f64>>,
    spread: f64,
}

pub fn run(folder: &str, rounds: usize) -> Result<(), String> {
    let harness = Harness::new(folder);
    let (peers, left_out) = peers(&harness);
    check::compare(&harness.workloads()?)?;
    agreement::compare(&harness, &peers)?;
    if !left_out.is_empty() {
        println!("Left out, as no driver was built: {}.", left_out.join(", "));
    }
    machine::say_how(rounds);
    let columns = columns(&harness)?;
    let timed = measure(&harness, &peers, &columns, rounds)?;
    machine::say_load("after");
    print_tables(&peers, &columns, &timed);
    Ok(())
}

fn columns(harness: &Harness) -> Result<Vec<Column>, String> {
    let mut columns = Vec::new();
    for units in harness.units(Length::Long)? {
        let repeats = if units.count <= 10_000 { FEW } else { 1 };
        let (name, unit) = (units.name, units.unit);
        columns.push(Column { name, unit, chunk: PAGE_SIZE, repeats });
    }
    for chunk in SMALL_PIECES {
        let (name, unit) = (LINES.to_string(), "byte".to_string());
        columns.push(Column { name, unit, chunk, repeats: 1 });
    }
    Ok(columns)
}

fn measure(
    harness: &Harness,
    peers: &[Peer],
    columns: &[Column],
    rounds: usize,
) -> Result<Vec<Timed>, String> {
    let mut comparisons: Vec<Comparison> =
        columns.iter().map(|column| column.comparison(harness, peers)).collect();
    let times = take_turns(rounds, &mut comparisons)?;
    columns.iter().zip(&times).map(|(column, times)| column.timed(harness, peers, times)).collect()
}

impl Column {
    fn title(&self) -> String {
        let calls = match self.chunk {
            PAGE_SIZE => String::new(),
            1 => ", one byte a call".to_string(),
            size => format!(", {} bytes a call", size),
        };
        format!("{}{}, {}", self.name, calls, self.unit)
    }

    /// What a console is given in this column; none if it has no part.
    fn task(&self, peer: &Peer) -> Option<Task<'_>> {
        let chunk = match (self.chunk, peer.one_byte_call) {
            (1, true) => 0,
            (_, true) => return None,
            (chunk, false) => chunk,
        };
        let length = if self.chunk == PAGE_SIZE { peer.length() } else { Length::Short };
        Some(Task { length, name: &self.name, chunk })
    }

    fn comparison<'a>(&'a self, harness: &'a Harness, peers: &'a [Peer]) -> Comparison<'a> {
        let mut sides = Vec::new();
        for peer in peers {
            if let Some(task) = self.task(peer) {
                let most_rounds = if peer.slow { FEW } else { usize::MAX };
                sides.push(Side { run: Box::new(move || peer.time(harness, task)), most_rounds });
            }
        }
        Comparison { sides, repeats: self.repeats }
    }

    fn timed(&self, harness: &Harness, peers: &[Peer], times: &[Times]) -> Result<Timed, String> {
        let mut best = times.iter().map(Times::best);
        let mut units = Vec::new();
        for peer in peers {
            let unit = match self.task(peer) {
                None => None,
                Some(task) => {
                    let count = harness.count(task.length, task.name)?;
                    best.next().map(|best| best / count)
                }
            };
            units.push(unit);
        }
        Ok(Timed { units, spread: largest_spread(times) })
    }
}

fn print_tables(peers: &[Peer], columns: &[Column], timed: &[Timed]) {
    let ratio = |timed: &Timed, row: usize| Some(timed.units[row]? / timed.units[0]?);
    table(peers, columns, timed, ratio)
        .print("Ratio to the plain C console (1 is as fast, 10 is ten times slower)");
    table(peers, columns, timed, |timed, row| timed.units[row])
        .print("Nanoseconds of one unit, best round");
}

fn table(
    peers: &[Peer],
    columns: &[Column],
    timed: &[Timed],
    value: impl Fn(&Timed, usize) -> Option<f64>,
) -> Table {
    let mut table = Table::new(&with_head("", columns.iter().map(Column::title)));
    for (row, peer) in peers.iter().enumerate() {
        let cells = timed.iter().map(|timed| value(timed, row).map_or("-".to_string(), number));
        table.add(&with_head(peer.title, cells));
    }
    table.add(&with_head("spread", timed.iter().map(|timed| number(timed.spread))));
    table
}

fn with_head(head: &str, cells: impl Iterator<Item = String>) -> Vec<String> {
    std::iter::once(head.to_string()).chain(cells).collect()
}
