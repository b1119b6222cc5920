//! What is compared with the reference on streams: the console program,
//! and the library: writes of several sizes, and the one-byte call.
//! The library gives the marks as well.

use crate::expected::{print, print_marks, read};
use crate::library::{number, run_stream, Feed, STREAM_ANSWER};
use crate::port::{Cursor, BLANK, SCREEN_SIZE};
use crate::program::{self, Fault};
use std::ffi::OsStr;
use std::fmt;

pub enum Subject<'a> {
    Program(&'a OsStr),
    Library(Feed),
}

/// How the library is fed. The largest write cuts no stream.
pub const FEEDS: [Feed; 5] = [
    Feed::Writes(1),
    Feed::Writes(2),
    Feed::Writes(7),
    Feed::Writes(usize::MAX),
    Feed::Bytes,
];

/// The program, and the library fed in each way.
pub fn subjects(console: &OsStr) -> Vec<Subject<'_>> {
    let mut subjects = vec![Subject::Program(console)];
    subjects.extend(FEEDS.map(Subject::Library));
    subjects
}

impl Subject<'_> {
    /// What it prints for an input; for the library what the program would
    /// print for what it gives, and a line for the marks.
    pub fn output(&self, input: &[u8]) -> Result<Vec<u8>, Fault> {
        match self {
            Subject::Program(path) => program::run(path, input),
            Subject::Library(feed) => library_output(read(input), *feed),
        }
    }

    /// What it should give where a program should print this and the marks
    /// should have this line.
    pub fn wanted(&self, printed: &[u8], marks: &str) -> Vec<u8> {
        match self {
            Subject::Program(_) => printed.to_vec(),
            Subject::Library(_) => [printed, marks.as_bytes()].concat(),
        }
    }
}

impl fmt::Display for Subject<'_> {
    fn fmt(&self, to: &mut fmt::Formatter<'_>) -> fmt::Result {
        match self {
            Subject::Program(_) => write!(to, "console"),
            Subject::Library(Feed::Writes(usize::MAX)) => write!(to, "library with one write"),
            Subject::Library(Feed::Writes(size)) => write!(to, "library with writes of {}", size),
            Subject::Library(Feed::Bytes) => write!(to, "library with one-byte calls"),
        }
    }
}

fn library_output(bytes: &[u8], feed: Feed) -> Result<Vec<u8>, Fault> {
    let mut screen = [BLANK; SCREEN_SIZE];
    let mut answer = [0; STREAM_ANSWER];
    let length = run_stream(bytes, feed, &mut screen, &mut answer);
    if length != STREAM_ANSWER {
        return Err(Fault::Failed(format!("it gives {} and not {}", length, STREAM_ANSWER)));
    }
    if answer[0] != 0 {
        return Err(Fault::Failed(format!("a fresh console is refused with {}", answer[0])));
    }
    let (bells, marks) = (number(&answer[1..5]), number(&answer[7..11]));
    let at = Cursor { column: answer[5], line: answer[6] };
    let printed = print(&screen, at, bells as usize);
    Ok((printed + &print_marks(marks, answer[11] as usize)).into_bytes())
}
