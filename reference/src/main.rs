//! A text console of 80 by 24 cells, written the plainest way.
//!
//! Build: rustc --edition 2021 -O -o OUT src/main.rs
//! Test:  rustc --edition 2021 --test -o OUT src/main.rs && OUT
//!
//! The program hands standard input to a fresh console in one write, or
//! with --cut one byte a write, and shows the screen, cursor and bells.
//! With --script standard input is a script of calls on a fresh multiplexer
//! with a blank screen, and the program gives their answers as bytes.
//! With --field it is keys for an input field, and the program shows how
//! the field ended and its text.

mod block;
mod cells;
mod console;
mod cursor;
mod field;
mod marks;
mod multiplexer;
mod port;
mod script;
mod stored;
#[cfg(test)]
mod tests;

use console::write;
use field::Ending;
use port::{cell, Port, BLANK, SCREEN_SIZE};
use script::run_script;
use std::ffi::OsString;
use std::fs::File;
use std::io::{self, Read, Write};
use std::os::unix::ffi::OsStrExt;
use std::os::unix::io::AsFd;
use std::process::exit;

/// Bytes of the input past this many are not read; scripts and keys have no limit.
const INPUT_LIMIT: u64 = 1_048_576;

const USE: &str = "the only arguments known are --cut, --script and \
    --field WIDTH MAXIMUM DEFAULT, one at a time";

/// What the program is asked to do with its input.
#[derive(Clone, Debug, PartialEq, Eq)]
enum Task {
    Whole,
    Cut,
    Script,
    Field { width: usize, maximum: usize, default: Vec<u8> },
}

fn main() {
    let arguments: Vec<OsString> = std::env::args_os().skip(1).collect();
    let task = match task_asked(&arguments) {
        Some(task) => task,
        None => {
            eprintln!("console: {}", USE);
            exit(2);
        }
    };
    let read = match task {
        Task::Whole | Task::Cut => standard_input().and_then(read_input),
        Task::Script | Task::Field { .. } => standard_input().and_then(read_all),
    };
    let input = match read {
        Ok(input) => input,
        Err(error) => {
            eprintln!("console: cannot read standard input: {}", error);
            exit(1);
        }
    };
    let output = match task {
        Task::Whole => run(&input, false).into_bytes(),
        Task::Cut => run(&input, true).into_bytes(),
        Task::Script => run_script(&input, &mut [BLANK; SCREEN_SIZE]),
        Task::Field { width, maximum, default } => {
            run_field(width, maximum, &default, &input).into_bytes()
        }
    };
    let mut standard_output = io::stdout();
    // Answers need not end in a line feed, so what is left is flushed.
    let written = standard_output.write_all(&output).and_then(|_| standard_output.flush());
    if let Err(error) = written {
        eprintln!("console: cannot write standard output: {}", error);
        exit(1);
    }
}

/// No argument: one write. --cut alone: one byte a write. --script alone:
/// a script. --field with two numbers and a text: a field. Else none.
fn task_asked(arguments: &[OsString]) -> Option<Task> {
    if arguments.is_empty() {
        Some(Task::Whole)
    } else if arguments.len() == 1 && arguments[0] == "--cut" {
        Some(Task::Cut)
    } else if arguments.len() == 1 && arguments[0] == "--script" {
        Some(Task::Script)
    } else if arguments.len() == 4 && arguments[0] == "--field" {
        let width = number(&arguments[1])?;
        let maximum = number(&arguments[2])?;
        Some(Task::Field { width, maximum, default: arguments[3].as_bytes().to_vec() })
    } else {
        None
    }
}

/// A decimal number of any value; whether it is in range the field decides.
fn number(argument: &OsString) -> Option<usize> {
    argument.to_str()?.parse().ok()
}

/// Standard input without a buffer, so that nothing past the limit is taken.
fn standard_input() -> io::Result<File> {
    Ok(File::from(io::stdin().as_fd().try_clone_to_owned()?))
}

fn read_input(source: impl Read) -> io::Result<Vec<u8>> {
    let mut input = Vec::new();
    source.take(INPUT_LIMIT).read_to_end(&mut input)?;
    Ok(input)
}

/// A script and keys are read to their end.
fn read_all(mut source: impl Read) -> io::Result<Vec<u8>> {
    let mut input = Vec::new();
    source.read_to_end(&mut input)?;
    Ok(input)
}

/// Runs the input on a fresh console with a blank screen.
fn run(input: &[u8], cut: bool) -> String {
    let mut screen = [BLANK; SCREEN_SIZE];
    let mut port = Port::fresh();
    let mut bells = 0;
    if cut {
        for byte in input {
            let (status, after, rung) = write(port, &mut screen, &[*byte]);
            assert_eq!(status, 0, "a fresh console was refused");
            port = after;
            bells += rung;
        }
    } else {
        let (status, after, rung) = write(port, &mut screen, input);
        assert_eq!(status, 0, "a fresh console was refused");
        port = after;
        bells = rung;
    }
    report(&screen, &port, bells)
}

/// Each screen line in hex, then one line for the cursor and the bells.
fn report(screen: &[u8], port: &Port, bells: usize) -> String {
    let mut text = String::new();
    for line in 0..24 {
        for column in 0..80 {
            text.push_str(&format!("{:02x}", screen[cell(column, line)]));
        }
        text.push('\n');
    }
    let cursor = port.state.cursor;
    text.push_str(&format!("cursor {} {} bells {}\n", cursor.column, cursor.line, bells));
    text
}

/// Starts a field in a buffer of 0s and hands it the keys in one call. A
/// maximum that is too large is refused whatever the buffer, so the buffer
/// need not grow with it.
fn run_field(width: usize, maximum: usize, default: &[u8], keys: &[u8]) -> String {
    let mut buffer = vec![0; maximum.min(field::LARGEST)];
    let (status, state) = field::start(width, maximum, default, &mut buffer);
    let answer = field::keys(width, maximum, default, &mut buffer, state, keys);
    assert_eq!(answer.status, status, "the start and the keys were judged differently");
    let text = field::text(width, maximum, default, &buffer, answer.state, answer.ending);
    report_field(&answer, text)
}

/// One line for the answer, then one for the text in hex.
fn report_field(answer: &field::Answer, text: &[u8]) -> String {
    let ending = match answer.ending {
        Ending::None => "none",
        Ending::Return => "return",
        Ending::Escape => "escape",
    };
    let mut lines = format!("status {} ", answer.status);
    lines.push_str(&format!("length {} cursor {} ", answer.state.length, answer.state.cursor));
    lines.push_str(&format!("read {} beeps {} ending {}\n", answer.read, answer.beeps, ending));
    for byte in text {
        lines.push_str(&format!("{:02x}", byte));
    }
    lines.push('\n');
    lines
}
