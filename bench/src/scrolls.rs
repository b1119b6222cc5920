//! Scrolls by two builds of the library, before a change and now, and by
//! the plain C console: each behind a driver of its own, and so in a
//! process of its own.

use crate::check::agree;
use crate::drivers::Driver;
use crate::end::end_of;
use crate::letters::lines;
use crate::machine;
use crate::measure::{largest_spread, take_turns, Comparison, Side, Times};
use crate::reference;
use crate::table::{number, with_commas, Table};
use crate::workloads::{scrolls, Workload, PAGE, PAGE_SIZE};
use std::fs::write;
use std::path::{Path, PathBuf};

/// As many as paper 02 asks for.
const SCROLLS: usize = 10_000;

/// After so many some lines are left to compare.
const FEW: usize = 5;

/// Rounds of one process: the first has to find its memory.
const ROUNDS_OF_A_PROCESS: usize = 5;

/// That this build's driver scrolls as the reference program does.
pub fn check(folder: &str, ours: &str) -> Result<(), String> {
    let driver = Driver { title: "Combthrift".to_string(), program: PathBuf::from(ours) };
    compare(Path::new(folder), &[driver])
}

/// The build before is the first driver, and this one the second.
pub fn run(folder: &str, rounds: usize, drivers: &[Driver]) -> Result<(), String> {
    let folder = Path::new(folder);
    compare(folder, drivers)?;
    machine::say_how(rounds);
    let workloads = scrolls(SCROLLS);
    let streams = stored(folder, &workloads)?;
    let mut comparisons: Vec<Comparison> =
        streams.iter().map(|stream| comparison(stream, drivers)).collect();
    let times = take_turns(rounds, &mut comparisons)?;
    machine::say_load("after");
    let mut table = Table::new(&heads(drivers));
    for (workload, times) in workloads.iter().zip(&times) {
        table.add(&row(workload, times));
    }
    table.print("Nanoseconds of one scroll, best round of 10,000 scrolls");
    Ok(())
}

/// Fails unless every build shows what the reference program shows.
fn compare(folder: &Path, drivers: &[Driver]) -> Result<(), String> {
    let mut found = Vec::new();
    for count in [SCROLLS, FEW] {
        let workloads = scrolls(count);
        for (workload, stream) in workloads.iter().zip(stored(folder, &workloads)?) {
            let wanted = shown_by_reference(workload);
            for driver in drivers {
                if driver.dump(&stream, PAGE_SIZE)? != wanted {
                    found.push(format!("{} scrolls, {}: {}", count, workload.name, driver.title));
                }
            }
        }
    }
    agree(found)?;
    println!(
        "Each driver shows the reference program's 24 lines after {} scrolls, and after {}.",
        with_commas(SCROLLS as u64),
        FEW
    );
    Ok(())
}

fn shown_by_reference(workload: &Workload) -> Vec<String> {
    let end = end_of(|screen| reference::run(&workload.stream, PAGE, screen));
    lines(&end.screen).iter().map(|line| line.trim_end().to_string()).collect()
}

/// The streams as files, which drivers read.
fn stored(folder: &Path, workloads: &[Workload]) -> Result<Vec<PathBuf>, String> {
    let mut paths = Vec::new();
    for (index, workload) in workloads.iter().enumerate() {
        let path = folder.join(format!("scrolls-{}.apple", index));
        write(&path, &workload.stream).map_err(|error| format!("{}: {}", path.display(), error))?;
        paths.push(path);
    }
    Ok(paths)
}

fn comparison<'a>(stream: &'a Path, drivers: &'a [Driver]) -> Comparison<'a> {
    let side = |driver: &'a Driver| Side {
        run: Box::new(move || driver.time(stream, ROUNDS_OF_A_PROCESS, PAGE_SIZE)),
        most_rounds: usize::MAX,
    };
    Comparison { sides: drivers.iter().map(side).collect(), repeats: 1 }
}

fn heads(drivers: &[Driver]) -> Vec<String> {
    let mut heads = vec![String::new()];
    heads.extend(drivers.iter().map(|driver| driver.title.clone()));
    heads.push("times as quick".to_string());
    if drivers.len() > 2 {
        heads.push("before, ratio to C".to_string());
        heads.push("now, ratio to C".to_string());
    }
    heads.push("spread".to_string());
    heads
}

fn row(workload: &Workload, times: &[Times]) -> Vec<String> {
    let best: Vec<f64> = times.iter().map(|times| times.best() / workload.count as f64).collect();
    let mut cells = vec![workload.name.clone()];
    cells.extend(best.iter().map(|&best| number(best)));
    cells.push(number(best[0] / best[1]));
    if let [before, now, plain_c] = best[..] {
        cells.push(number(before / plain_c));
        cells.push(number(now / plain_c));
    }
    cells.push(number(largest_spread(times)));
    cells
}
