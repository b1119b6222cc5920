//! The benchmark. It is built and started by the scripts beside it.
//!
//! Usage: bench check FOLDER DRIVER
//!        bench own ROUNDS
//!        bench peers FOLDER ROUNDS
//!        bench scrolls FOLDER ROUNDS TITLE DRIVER TITLE DRIVER [TITLE DRIVER]
//!        bench instructions FOLDER DRIVER [C_DRIVER]
//!        bench sizes NOTES DISASSEMBLY
//!
//! `check` compares the results on the benchmark's own workloads, and
//! does no more. `scrolls` takes the build before first, then this one,
//! then the plain C console. The exit status is 0 if all is well, 1 if something
//! failed or results differ, 2 if the arguments are wrong.

#[path = "../../reference/src/cells.rs"]
mod cells;
#[path = "../../reference/src/console.rs"]
mod console;
#[path = "../../reference/src/cursor.rs"]
mod cursor;
#[allow(dead_code)]
#[path = "../../tests/compare/expected.rs"]
mod expected;
#[allow(dead_code)]
#[path = "../../tests/compare/lines.rs"]
mod lines;
#[path = "../../reference/src/marks.rs"]
mod marks;
#[path = "../../reference/src/port.rs"]
mod port;
#[allow(dead_code)]
#[path = "../../tests/compare/rng.rs"]
mod rng;
#[path = "../../reference/src/stored.rs"]
mod stored;

mod agreement;
mod check;
mod clock;
mod drivers;
mod end;
mod feed;
mod frames;
mod harness;
mod instructions;
mod json;
mod layout;
mod letters;
mod library;
mod machine;
mod measure;
mod own;
mod peers;
mod reference;
mod script;
mod scrolls;
mod sizes;
mod stack;
mod table;
mod workloads;

use drivers::Driver;
use std::path::PathBuf;
use std::process::exit;

const USAGE: &str = "usage: bench check FOLDER DRIVER
       bench own ROUNDS
       bench peers FOLDER ROUNDS
       bench scrolls FOLDER ROUNDS TITLE DRIVER TITLE DRIVER [TITLE DRIVER]
       bench instructions FOLDER DRIVER [C_DRIVER]
       bench sizes NOTES DISASSEMBLY";

fn main() {
    let arguments: Vec<String> = std::env::args().skip(1).collect();
    match asked(&arguments) {
        Some(Ok(())) => {}
        Some(Err(message)) => {
            eprintln!("bench: {}", message);
            exit(1);
        }
        None => {
            eprintln!("{}", USAGE);
            exit(2);
        }
    }
}

/// Does what is asked for; none if the arguments are not understood.
fn asked(arguments: &[String]) -> Option<Result<(), String>> {
    let (part, arguments) = arguments.split_first()?;
    match (part.as_str(), arguments) {
        ("check", [folder, driver]) => Some(compare(folder, driver)),
        ("own", [rounds]) => Some(own::run(at_least_one(rounds)?)),
        ("peers", [folder, rounds]) => Some(peers::run(folder, at_least_one(rounds)?)),
        ("scrolls", [folder, rounds, sides @ ..]) => {
            Some(scrolls::run(folder, at_least_one(rounds)?, &drivers(sides)?))
        }
        ("instructions", [folder, ours]) => Some(instructions::run(folder, ours, None)),
        ("instructions", [folder, ours, plain_c]) => {
            Some(instructions::run(folder, ours, Some(plain_c)))
        }
        ("sizes", [notes, disassembly]) => Some(sizes::run(notes, disassembly)),
        _ => None,
    }
}

/// The results alone, with nothing timed.
fn compare(folder: &str, driver: &str) -> Result<(), String> {
    own::check()?;
    instructions::check()?;
    scrolls::check(folder, driver)
}

/// Two drivers or three, each with its title before it.
fn drivers(sides: &[String]) -> Option<Vec<Driver>> {
    let drivers: Option<Vec<Driver>> = sides.chunks(2).map(driver).collect();
    drivers.filter(|drivers| (2..=3).contains(&drivers.len()))
}

fn driver(side: &[String]) -> Option<Driver> {
    match side {
        [title, program] => Some(Driver { title: title.clone(), program: PathBuf::from(program) }),
        _ => None,
    }
}

fn at_least_one(rounds: &str) -> Option<usize> {
    rounds.parse().ok().filter(|&rounds| rounds > 0)
}
