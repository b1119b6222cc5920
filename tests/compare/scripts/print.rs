//! Prints a run that shows a fault.

use super::run::Run;
use crate::difference::{brief_hex, hex};
use crate::port::BLANK;

/// The run, as the shortest that was found.
pub fn print_run(run: &Run) {
    let blank = run.screen.iter().all(|&cell| cell == BLANK);
    println!(
        "shortest script found, on a screen of {} bytes, {}:",
        run.screen.len(),
        if blank { "all blank" } else { "as this seed and number make it" }
    );
    for (place, call) in run.calls.iter().enumerate() {
        println!("  {}: {}", place + 1, call);
    }
    if !run.ending.is_empty() {
        println!("  then {} bytes: {}", run.ending.len(), brief_hex(&run.ending));
    }
    if run.spare != 0 {
        println!("  with room for {} bytes of answers", run.room());
    }
    println!("its bytes: {}", hex(&run.script()));
}
