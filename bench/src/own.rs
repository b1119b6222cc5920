//! The library against the reference program, in one process.

use crate::check;
use crate::end::{end_of, timed, End};
use crate::feed::{Answer, Feed};
use crate::library::LIBRARY;
use crate::machine;
use crate::measure::{largest_spread, take_turns, Comparison, Side, Times};
use crate::reference;
use crate::table::{number, texts, Table};
use crate::workloads::{all, Workload, PAGE};

/// Short, so that each side finds a quiet moment in one of many rounds.
/// All of it takes about a minute.
const BYTES: usize = 1 << 20;
const SCROLLS: usize = 50_000;

const HEADS: [&str; 6] = ["", "unit", "Combthrift, ns", "reference program, ns", "ratio", "spread"];

/// The results alone, with nothing timed.
pub fn check() -> Result<(), String> {
    check::compare(&all(BYTES, SCROLLS))
}

pub fn run(rounds: usize) -> Result<(), String> {
    let workloads = all(BYTES, SCROLLS);
    check::compare(&workloads)?;
    machine::say_how(rounds);
    let mut comparisons: Vec<Comparison> = workloads.iter().map(comparison).collect();
    let times = take_turns(rounds, &mut comparisons)?;
    machine::say_load("after");
    let mut table = Table::new(&texts(&HEADS));
    for (workload, times) in workloads.iter().zip(&times) {
        table.add(&row(workload, times));
    }
    table.print("Time of one unit, best round; the ratio is Combthrift over the reference");
    Ok(())
}

fn comparison(workload: &Workload) -> Comparison<'_> {
    let library = |stream: &[u8], feed: Feed, screen: &mut [u8]| LIBRARY.run(stream, feed, screen);
    let wanted = end_of(|screen| reference::run(&workload.stream, PAGE, screen));
    let sides =
        vec![side(workload, wanted.clone(), library), side(workload, wanted, reference::run)];
    Comparison { sides, repeats: 1 }
}

/// The end is looked at after each round, so that no compiler can leave
/// out the work.
fn side<'a>(
    workload: &'a Workload,
    wanted: End,
    run: impl Fn(&[u8], Feed, &mut [u8]) -> Answer + 'a,
) -> Side<'a> {
    let round = move || {
        let (end, spent) = timed(|screen| run(&workload.stream, workload.feed, screen));
        match wanted.difference(&end) {
            None => Ok(spent),
            Some(difference) => Err(format!("{}: {}", workload.name, difference)),
        }
    };
    Side { run: Box::new(round), most_rounds: usize::MAX }
}

fn row(workload: &Workload, times: &[Times]) -> Vec<String> {
    let ours = times[0].best() / workload.count as f64;
    let theirs = times[1].best() / workload.count as f64;
    vec![
        workload.name.clone(),
        workload.unit.clone(),
        number(ours),
        number(theirs),
        number(ours / theirs),
        number(largest_spread(times)),
    ]
}
