//! Compares library and reference before anything is timed: a wrong
//! console may well be a fast one.

use crate::end::end_of;
use crate::feed::Feed;
use crate::library::LIBRARY;
use crate::reference;
use crate::table::with_commas;
use crate::workloads::{Workload, PAGE};

/// Whole, cut into pieces, and byte by byte in two ways.
const FEEDS: [Feed; 6] = [
    Feed::Writes(usize::MAX),
    PAGE,
    Feed::Writes(16),
    Feed::Writes(7),
    Feed::Writes(1),
    Feed::Bytes,
];

/// Scrolls in the end leave nothing to see; after the first of these
/// numbers of bytes the lines of text have moved, and some are left. In the
/// end every line is marked; after the second number few are.
const PARTS: [usize; 2] = [1985, 150];

/// How many differences are told of.
const SHOWN: usize = 5;

/// Fails if on some workload the screens, cursors, bells or marks differ.
pub fn compare(workloads: &[Workload]) -> Result<(), String> {
    let mut found = Vec::new();
    for workload in workloads {
        let whole = workload.stream.len();
        for length in [whole, whole.min(PARTS[0]), whole.min(PARTS[1])] {
            found.extend(differences(&workload.name, &workload.stream[..length]));
        }
    }
    agree(found)?;
    println!(
        "Library and reference program leave the same screen, cursor, bells and marks after \
         every workload and after its first {} and {} bytes: whole, in pieces of 65,536, 16 and \
         7 bytes, and one byte a call, by value and by the one-byte call.",
        with_commas(PARTS[0] as u64),
        PARTS[1]
    );
    Ok(())
}

/// No table without agreement. A few differences tell enough.
pub fn agree(differences: Vec<String>) -> Result<(), String> {
    if differences.is_empty() {
        return Ok(());
    }
    let shown = &differences[..differences.len().min(SHOWN)];
    Err(format!(
        "nothing is measured, as {} results differ; the first:\n{}",
        differences.len(),
        shown.join("\n")
    ))
}

fn differences(name: &str, stream: &[u8]) -> Vec<String> {
    let wanted = end_of(|screen| reference::run(stream, PAGE, screen));
    let mut found = Vec::new();
    for feed in FEEDS {
        let given = end_of(|screen| LIBRARY.run(stream, feed, screen));
        if let Some(difference) = wanted.difference(&given) {
            found.push(format!(
                "{}, {} bytes {}: {}",
                name,
                stream.len(),
                in_words(feed),
                difference
            ));
        }
    }
    found
}

fn in_words(feed: Feed) -> String {
    match feed {
        Feed::Writes(usize::MAX) => "in one write".to_string(),
        Feed::Writes(size) => format!("in writes of {}", size),
        Feed::Bytes => "by the one-byte call".to_string(),
    }
}
