//! The comparison of the library with the reference on random input
//! fields, call by call, keys whole and cut.

mod call;
mod coverage;
mod cut;
mod effects;
mod generator;
mod keys;
mod limits;
mod moment;
mod outcomes;
mod refusals;
mod run;
mod shrink_run;
mod situations;
mod sizes;
mod statuses;
mod subject;

use crate::difference::brief_hex;
use coverage::Coverage;
use outcomes::difference;
use run::Run;
use shrink_run::shrink_run;

/// Of what was not reached no more than this many are named.
const NAMED: usize = 20;

/// Compares on `count` fields, prints what differs, what was reached and
/// a line at the end, and tells whether all is well.
pub fn fields(seed: u64, count: u64) -> bool {
    let mut coverage = Coverage::new();
    let mut differing: u64 = 0;
    for number in 0..count {
        let run = generator::run(seed, number);
        let steps = run.by_reference();
        if coverage.follow(&run.field, &steps).is_err() {
            println!("seed {} field {}: the reference is wrong", seed, number);
            report(&run, reference_fault);
            println!("fields: stopped after {} of {} fields, seed {}", number, count, seed);
            return false;
        }
        if difference(&run.field, &steps).is_some() {
            differing += 1;
            if differing == 1 {
                println!("seed {} field {}: the library differs", seed, number);
                report(&run, library_difference);
            }
        }
    }
    coverage.print();
    let missing = coverage.missing();
    for name in missing.iter().take(NAMED) {
        println!("not reached: {}", name);
    }
    if differing > 0 {
        println!("fields that differ: {}", differing);
    }
    println!("fields: {} fields, {} not reached, seed {}", count, missing.len(), seed);
    differing == 0 && missing.is_empty()
}

/// In words, where the library differs from the reference.
fn library_difference(run: &Run) -> Option<String> {
    difference(&run.field, &run.by_reference())
}

/// In words, where the reference gives what it should not.
fn reference_fault(run: &Run) -> Option<String> {
    Coverage::new().follow(&run.field, &run.by_reference()).err()
}

/// Prints the shortest run found that shows a fault, and the fault.
fn report(run: &Run, fault: fn(&Run) -> Option<String>) {
    let run = shrink_run(run, |shorter| fault(shorter).is_some());
    println!("shortest run found:");
    print_run(&run);
    match fault(&run) {
        None => println!("it does not show again: something is not steady"),
        Some(fault) => println!("{}", fault),
    }
}

fn print_run(run: &Run) {
    let (field, buffer) = (&run.field, &run.buffer);
    println!("  width {}, maximum {}", field.width, field.maximum);
    println!("  default, {} bytes: {}", field.default.len(), brief_hex(&field.default));
    println!("  buffer, {} bytes: {}", buffer.len(), brief_hex(buffer));
    for (place, call) in run.calls.iter().enumerate() {
        println!("  {}: {}", place + 1, call);
    }
}
