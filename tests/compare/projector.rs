//! Plays a projector beside the library, on random scripts of calls by
//! client. It holds a copy of the screen. It takes the marks of the open
//! clients, copies the marked lines and no others, and then its copy must
//! be the screen.

mod copy;
mod counts;
mod takings;

use crate::scripts::generator;
use crate::scripts::print::print_run;
use crate::scripts::run::Run;
use crate::scripts::shrink_run::shrink_run;
use copy::follow;
use counts::Counts;
use takings::with_takings;

/// After how many calls each a projector copies, and this in words; the
/// scripts take turns. Where it is slow, marks gather over some calls, and
/// a client may be closed before the next copy.
const PACES: [(usize, &str); 2] = [(1, "each call"), (3, "every third call and the last")];

/// Follows `count` scripts, prints what is wrong, what was copied and a
/// line at the end, and tells whether all is well.
pub fn projector(seed: u64, count: u64) -> bool {
    let mut counts = Counts::default();
    let mut wrong: u64 = 0;
    for number in 0..count {
        let (pace, after) = PACES[(number % 2) as usize];
        let run = Run { ending: Vec::new(), spare: 0, ..generator::run(seed, number) };
        match project(&run, pace) {
            Ok(more) => counts.add(&more),
            Err(_) => {
                wrong += 1;
                if wrong == 1 {
                    println!("seed {} script {}: the projector's copy is wrong", seed, number);
                    println!("it copies after {}", after);
                    report(&run, pace);
                }
            }
        }
    }
    counts.print();
    let shown = counts.needed > 0 && counts.needed_before_closing > 0;
    if !shown {
        println!("a taking that is left out does not show, so that nothing is tested");
    }
    if wrong > 0 {
        println!("scripts with a wrong copy: {}", wrong);
    }
    println!("projector: {} scripts, {} frames, seed {}", count, counts.frames, seed);
    wrong == 0 && shown
}

/// Follows one run at a pace. Tells in words where the copy is wrong.
fn project(run: &Run, pace: usize) -> Result<Counts, String> {
    follow(&with_takings(run, pace)?)
}

/// Prints the shortest script found that shows a wrong copy, and where.
fn report(run: &Run, pace: usize) {
    let run = shrink_run(run, |shorter| project(shorter, pace).is_err());
    print_run(&run);
    match project(&run, pace) {
        Ok(_) => println!("it is not wrong again: the library is not steady"),
        Err(fault) => println!("{}", fault),
    }
}
