//! The comparison of the library with the reference on random scripts of
//! calls by client, answer by answer: each tells the status, the count, the
//! marks returned and held, a returned block, and the screen.

pub mod answer;
mod blocks;
pub mod call;
mod codes;
mod coverage;
pub mod generator;
mod marks;
mod model;
mod moment;
pub mod outcomes;
mod panes;
pub mod print;
mod refusals;
pub mod run;
pub mod shrink_run;
mod situations;
mod surroundings;
mod takings;
mod writes;

use coverage::Coverage;
use outcomes::difference;
use print::print_run;
use run::Run;
use shrink_run::shrink_run;

/// Compares on `count` scripts, prints what differs, what was reached and
/// a line at the end, and tells whether all is well.
pub fn scripts(seed: u64, count: u64) -> bool {
    let mut coverage = Coverage::default();
    let mut differing: u64 = 0;
    for number in 0..count {
        let run = generator::run(seed, number);
        if let Err(fault) = coverage.follow(&run) {
            println!("seed {} script {}: the reference gives {}", seed, number, fault);
            println!("scripts: stopped after {} of {} scripts, seed {}", number, count, seed);
            return false;
        }
        if library_difference(&run).is_some() {
            differing += 1;
            if differing == 1 {
                report(seed, number, &run);
            }
        }
    }
    coverage.print();
    let missing = coverage.missing();
    for name in &missing {
        println!("not reached: {}", name);
    }
    if differing > 0 {
        println!("scripts that differ: {}", differing);
    }
    println!("scripts: {} scripts, {} not reached, seed {}", count, missing.len(), seed);
    differing == 0 && missing.is_empty()
}

/// In words, where the library differs from the reference.
fn library_difference(run: &Run) -> Option<String> {
    difference(run, &run.by_reference(), &run.by_library())
}

/// Prints the shortest script found that shows a difference, and where.
fn report(seed: u64, number: u64, run: &Run) {
    let run = shrink_run(run, |shorter| library_difference(shorter).is_some());
    println!("seed {} script {}: the library differs", seed, number);
    print_run(&run);
    match library_difference(&run) {
        None => println!("it does not differ again: the library is not steady"),
        Some(difference) => println!("{}", difference),
    }
}
