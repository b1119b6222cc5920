//! The random comparison of the program and the library with the
//! reference; of the library the marks too.

use crate::difference::{first_difference, hex};
use crate::expected::{self, Output};
use crate::generator::stream;
use crate::pairs::{Pairs, ALL_PAIRS};
use crate::program::Fault;
use crate::shrink::shrink;
use crate::subjects::{subjects, Subject};
use std::ffi::OsStr;

/// Of the pairs not reached no more than this many are named.
const NAMED: usize = 10;

/// Compares on `count` streams, prints what differs and a line at the
/// end, and tells whether all is well.
pub fn random(seed: u64, count: u64, console: &OsStr) -> bool {
    let subjects = subjects(console);
    let mut pairs = Pairs::none();
    let mut differing: u64 = 0;
    for number in 0..count {
        let input = stream(seed, number);
        let output = expected::whole(&input);
        let cut = expected::cut(&input, |port, byte| pairs.note(port, byte));
        if cut != output {
            println!("seed {} stream {}: the reference differs when cut", seed, number);
            differing += 1;
            continue;
        }
        let (subject, printed) = match first_to_differ(&subjects, &input, &output) {
            None => continue,
            Some(found) => found,
        };
        if let Err(fault @ (Fault::NotStarted(_) | Fault::TooSlow)) = printed {
            println!("seed {} stream {}: {} {}", seed, number, subject, fault);
            if fault == Fault::TooSlow {
                println!("stream: {}", hex(&input));
            }
            println!("random: stopped after {} of {} streams, seed {}", number, count, seed);
            return false;
        }
        differing += 1;
        if differing == 1 {
            report(seed, number, &input, subject);
        }
    }
    let missing = pairs.missing();
    if !missing.is_empty() {
        let named = &missing[..missing.len().min(NAMED)];
        println!("not reached: {}", named.join(", "));
    }
    if differing > 0 {
        println!("streams that differ: {}", differing);
    }
    println!(
        "random: {} streams, {} of {} pairs of code and setting reached, seed {}",
        count,
        pairs.count(),
        ALL_PAIRS,
        seed
    );
    differing == 0 && missing.is_empty()
}

/// The first that gives something else for the input, with what it gives.
fn first_to_differ<'a, 'b>(
    subjects: &'a [Subject<'b>],
    input: &[u8],
    output: &Output,
) -> Option<(&'a Subject<'b>, Result<Vec<u8>, Fault>)> {
    subjects
        .iter()
        .map(|subject| (subject, subject.output(input)))
        .find(|(subject, given)| differs(subject, output, given))
}

fn differs(subject: &Subject, output: &Output, given: &Result<Vec<u8>, Fault>) -> bool {
    match given {
        Ok(given) => *given != wanted(subject, output),
        Err(_) => true,
    }
}

fn wanted(subject: &Subject, output: &Output) -> Vec<u8> {
    subject.wanted(output.printed.as_bytes(), &output.marks)
}

/// Prints the shortest stream that shows a difference, and where.
fn report(seed: u64, number: u64, input: &[u8], subject: &Subject) {
    let shortest = shrink(input, |shorter| {
        differs(subject, &expected::whole(shorter), &subject.output(shorter))
    });
    println!("seed {} stream {}: {} differs", seed, number, subject);
    println!("shortest stream: {}", hex(&shortest));
    match subject.output(&shortest) {
        Err(fault) => println!("{} {}", subject, fault),
        Ok(given) => {
            let wanted = wanted(subject, &expected::whole(&shortest));
            match first_difference(&wanted, &given) {
                None => println!("it does not differ again: the {} is not steady", subject),
                Some(difference) => {
                    println!("output line {} should be {}", difference.line, difference.wanted);
                    println!("output line {} is        {}", difference.line, difference.given);
                }
            }
        }
    }
}
