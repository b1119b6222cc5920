//! Compares the console program and the library `boundary` with the
//! reference program, on stored streams, on random ones, on random
//! scripts of calls by client, on random input fields, and on scrolls of
//! every viewport. Plays a projector, which shows the library's screen by
//! its marks alone.
//!
//! Build: rustc --edition 2021 -O -L native=crates/boundary/out
//!        -l static=boundary -o OUT tests/compare/main.rs
//! Run:   OUT streams DIR CONSOLE
//!        OUT random SEED COUNT CONSOLE
//!        OUT scripts SEED COUNT
//!        OUT projector SEED COUNT
//!        OUT fields SEED COUNT
//!        OUT viewports
//!
//! CONSOLE is a program that reads a stream from standard input and
//! prints the screen, cursor and bells. The exit status is 0 if all is
//! well, 1 if something failed, 2 if the arguments are wrong.

#[path = "../../reference/src/block.rs"]
mod block;
#[path = "../../reference/src/cells.rs"]
mod cells;
#[path = "../../reference/src/console.rs"]
mod console;
#[path = "../../reference/src/cursor.rs"]
mod cursor;
#[path = "../../reference/src/field.rs"]
mod field;
#[path = "../../reference/src/marks.rs"]
mod marks;
#[path = "../../reference/src/multiplexer.rs"]
mod multiplexer;
#[path = "../../reference/src/port.rs"]
mod port;
#[path = "../../reference/src/script.rs"]
mod script;
#[path = "../../reference/src/stored.rs"]
mod stored;

mod commands;
mod difference;
mod edges;
mod expected;
mod fields;
mod generator;
mod library;
mod limits;
mod lines;
mod outputs;
mod pairs;
mod pieces;
mod program;
mod projector;
mod random;
mod rng;
mod scripts;
mod shrink;
mod streams;
mod subjects;
mod viewports;

use std::ffi::{OsStr, OsString};
use std::path::Path;
use std::process::exit;

const USAGE: &str = "usage: compare streams DIR CONSOLE
       compare random SEED COUNT CONSOLE
       compare scripts SEED COUNT
       compare projector SEED COUNT
       compare fields SEED COUNT
       compare viewports";

fn main() {
    let arguments: Vec<OsString> = std::env::args_os().skip(1).collect();
    match asked(&arguments) {
        Some(true) => {}
        Some(false) => exit(1),
        None => {
            eprintln!("{}", USAGE);
            exit(2);
        }
    }
}

/// Runs the command asked for and tells whether all is well; none if the
/// arguments are not understood.
fn asked(arguments: &[OsString]) -> Option<bool> {
    let (part, arguments) = arguments.split_first()?;
    match (part.to_str()?, arguments) {
        ("streams", [folder, console]) => Some(streams::streams(Path::new(folder), console)),
        ("random", [seed, count, console]) => {
            Some(random::random(number(seed)?, number(count)?, console))
        }
        ("scripts", [seed, count]) => Some(scripts::scripts(number(seed)?, number(count)?)),
        ("projector", [seed, count]) => Some(projector::projector(number(seed)?, number(count)?)),
        ("fields", [seed, count]) => Some(fields::fields(number(seed)?, number(count)?)),
        ("viewports", []) => Some(viewports::viewports()),
        _ => None,
    }
}

fn number(argument: &OsStr) -> Option<u64> {
    argument.to_str()?.parse().ok()
}
