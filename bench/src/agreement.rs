//! Whether all consoles end a stream alike, before they are timed.

use crate::check::agree;
use crate::drivers::{printed, Peer, Task};
use crate::expected;
use crate::harness::{Harness, Length, LINES, SMALL_PIECES};
use crate::workloads::PAGE_SIZE;
use std::fs::{read, File};
use std::process::Command;

const PIECE: usize = 7;

/// Fails if consoles differ on some workload. The plain C console sets
/// what the others must show; it is itself compared with the reference.
pub fn compare(harness: &Harness, peers: &[Peer]) -> Result<(), String> {
    let mut found = Vec::new();
    for units in harness.units(Length::Long)? {
        if !plain_c_is_right(harness, &units.name)? {
            found.push(format!("{}: plain C console and reference program", units.name));
        }
        for peer in peers {
            if !shows_the_same(harness, &peers[0], peer, &units.name)? {
                found.push(format!("{}: plain C console and {}", units.name, peer.title));
            }
        }
    }
    agree(found)?;
    println!(
        "All consoles below show the same 24 lines after every workload, and in pieces of \
         7 bytes, the lines also of 1 and of 16; the plain C console has the reference \
         program's cells, cursor and bells."
    );
    Ok(())
}

/// Its cells, cursor and bells by the program that the harness builds of
/// it, which prints what a console program is to print.
fn plain_c_is_right(harness: &Harness, name: &str) -> Result<bool, String> {
    let path = harness.stream(Length::Short, name, "apple");
    let failed = |error| format!("{}: {}", path.display(), error);
    let stream = read(&path).map_err(failed)?;
    let input = File::open(&path).map_err(failed)?;
    let output = Command::new(harness.program("ref")).stdin(input).output();
    Ok(printed("plain C console", output)? == expected::whole(&stream).printed)
}

/// As it is timed, and cut into pieces.
fn shows_the_same(
    harness: &Harness,
    plain_c: &Peer,
    peer: &Peer,
    name: &str,
) -> Result<bool, String> {
    let whole = |length| Task { length, name, chunk: PAGE_SIZE };
    let shown = plain_c.dump(harness, whole(Length::Short))?;
    for chunk in pieces(peer, name) {
        if peer.dump(harness, Task { length: Length::Short, name, chunk })? != shown {
            return Ok(false);
        }
    }
    if peer.one_byte_call {
        return Ok(true);
    }
    let whole = whole(peer.length());
    Ok(peer.dump(harness, whole)? == plain_c.dump(harness, whole)?)
}

/// The lengths of the pieces that a stream is cut into; 0 stands for the
/// one-byte call.
fn pieces(peer: &Peer, name: &str) -> Vec<usize> {
    if peer.one_byte_call {
        return vec![0];
    }
    let mut pieces = vec![PIECE];
    if name == LINES {
        pieces.extend(SMALL_PIECES);
    }
    pieces
}
