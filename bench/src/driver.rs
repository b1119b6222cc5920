//! The library behind the command line of the harness's drivers.
//!
//! Usage: driver STREAM ROUNDS CHUNK [dump]
//!        driver SCRIPT ROOM
//!
//! Prints the nanoseconds of each round, or with `dump` the final 24
//! lines as text. A CHUNK of 0 stands for the one-byte call. The library
//! makes the fresh console in the same call, so that is timed as well.
//!
//! A SCRIPT of calls by client, with ROOM bytes for the answers, is run
//! once and nothing is printed: it is there for counting instructions.

mod clock;
mod feed;
mod letters;
mod library;

use feed::Feed;
use library::{run_script, LIBRARY};
use std::process::exit;

const BLANK: u8 = 0xA0;
const CELLS: usize = 1920;

fn main() {
    let arguments: Vec<String> = std::env::args().skip(1).collect();
    let done = match &arguments[..] {
        [stream, rounds, chunk] => time(stream, rounds, chunk),
        [stream, _, chunk, dump] if dump == "dump" => show(stream, chunk),
        [script, room] => make_calls(script, room),
        _ => Err("usage: driver STREAM ROUNDS CHUNK [dump], or driver SCRIPT ROOM".to_string()),
    };
    if let Err(message) = done {
        eprintln!("{}", message);
        exit(1);
    }
}

fn time(path: &str, rounds: &str, chunk: &str) -> Result<(), String> {
    let stream = read(path)?;
    let feed = feed_of(chunk)?;
    for _ in 0..number(rounds)? {
        println!("{}", round(&stream, feed)?.0);
    }
    Ok(())
}

fn show(path: &str, chunk: &str) -> Result<(), String> {
    let (_, screen) = round(&read(path)?, feed_of(chunk)?)?;
    for line in letters::lines(&screen) {
        println!("{}", line);
    }
    Ok(())
}

/// The answers are not looked at: that would be counted too.
fn make_calls(path: &str, room: &str) -> Result<(), String> {
    let mut answers = vec![0; number(room)?];
    run_script(&read(path)?, &mut [BLANK; CELLS], &mut answers);
    Ok(())
}

/// One round on a screen that is blanked first, outside of the time.
fn round(stream: &[u8], feed: Feed) -> Result<(u64, [u8; CELLS]), String> {
    let mut screen = [BLANK; CELLS];
    let before = clock::nanoseconds();
    let answer = LIBRARY.run(stream, feed, &mut screen);
    let spent = clock::nanoseconds() - before;
    match answer[0] {
        0 => Ok((spent, screen)),
        status => Err(format!("refused with status {}", status)),
    }
}

fn feed_of(chunk: &str) -> Result<Feed, String> {
    match number(chunk)? {
        0 => Ok(Feed::Bytes),
        size => Ok(Feed::Writes(size)),
    }
}

fn read(path: &str) -> Result<Vec<u8>, String> {
    std::fs::read(path).map_err(|error| format!("{}: {}", path, error))
}

fn number(text: &str) -> Result<usize, String> {
    text.parse().map_err(|_| format!("'{}' is not a number", text))
}
