//! The workloads as streams, made from a seed: the same on each machine.

use crate::feed::Feed;
use crate::rng::Rng;

pub struct Workload {
    pub name: String,
    /// What is counted: a byte, or what the workload is about.
    pub unit: String,
    pub count: usize,
    pub stream: Vec<u8>,
    /// How it is fed when it is timed.
    pub feed: Feed,
}

/// Pieces so large that the calls themselves do not count.
pub const PAGE_SIZE: usize = 65536;
pub const PAGE: Feed = Feed::Writes(PAGE_SIZE);

const SEED: u64 = 1;
const COLUMNS: u64 = 80;
const LINES: u8 = 24;

/// Bells at the end of each stream, so that they are compared too.
const BELLS: [u8; 3] = [0x07; 3];

/// Twenty of them, as often as each is chosen: to the line's end, the
/// line, from its start, to the screen's end, from its start, the screen.
const ERASES: [u8; 20] = [
    0x1D, 0x1D, 0x1D, 0x1D, 0x1D, 0x1D, 0x1D, 0x1D, 0x1A, 0x1A, 0x1A, 0x03, 0x03, 0x0B, 0x0B, 0x0B,
    0x13, 0x13, 0x0C, 0x0C,
];

/// What scrolls: the parameters of $02, or none for the whole screen, and
/// the number of lines.
struct Area {
    name: &'static str,
    viewport: &'static [u8],
    height: u8,
}

const AREAS: [Area; 3] = [
    Area { name: "whole screen", viewport: &[], height: LINES },
    Area { name: "16 full lines", viewport: &[32, 36, 111, 51], height: 16 },
    Area { name: "viewport of 60 by 16", viewport: &[42, 36, 101, 51], height: 16 },
];

/// All workloads: streams of about so many bytes, and so many scrolls.
pub fn all(bytes: usize, count: usize) -> Vec<Workload> {
    let mut workloads =
        vec![text("lines of text", lines(bytes), PAGE), text("one long run", run(bytes), PAGE)];
    workloads.extend(scrolls(count));
    workloads.extend([
        addressed(bytes),
        erases(bytes),
        text("one byte a call, by value", lines(bytes / 4), Feed::Writes(1)),
        text("16 bytes a call, by value", lines(bytes / 4), Feed::Writes(16)),
        text("one byte a call, one-byte call", lines(bytes / 4), Feed::Bytes),
    ]);
    workloads
}

/// Up by line feeds on the last line, and down by $1F on the first.
pub fn scrolls(count: usize) -> Vec<Workload> {
    let up = AREAS.iter().map(|area| scroll("up", area, area.height - 1, 0x0A, count));
    let down = AREAS.iter().map(|area| scroll("down", area, 0, 0x1F, count));
    up.chain(down).collect()
}

/// The lines of one byte a call for calls by client. Apart from the
/// others, as the consoles beside ours have no clients.
pub fn by_client(bytes: usize) -> Workload {
    text("one byte a call, by client", lines(bytes / 4), Feed::Writes(1))
}

fn rng(workload: u64) -> Rng {
    Rng::new(SEED, workload)
}

fn workload(name: &str, unit: &str, count: usize, mut stream: Vec<u8>) -> Workload {
    stream.extend_from_slice(&BELLS);
    Workload { name: name.to_string(), unit: unit.to_string(), count, stream, feed: PAGE }
}

fn text(name: &str, stream: Vec<u8>, feed: Feed) -> Workload {
    let count = stream.len();
    Workload { feed, ..workload(name, "byte", count, stream) }
}

fn letters(rng: &mut Rng, count: u64) -> Vec<u8> {
    (0..count).map(|_| rng.between(0x20, 0x7E)).collect()
}

/// Lines of 41 to 79 letters, each with a line end.
fn lines(bytes: usize) -> Vec<u8> {
    let mut rng = rng(1);
    let mut stream = Vec::new();
    while stream.len() < bytes {
        let count = 41 + rng.below(39);
        stream.extend(letters(&mut rng, count));
        stream.push(0x0D);
    }
    stream
}

/// Letters without a line end; the last line is half full.
fn run(bytes: usize) -> Vec<u8> {
    let columns = COLUMNS as usize;
    letters(&mut rng(2), (bytes / columns * columns + columns / 2) as u64)
}

/// A full screen, a viewport, and on the cursor's line a code that scrolls.
fn scroll(direction: &str, area: &Area, cursor_line: u8, code: u8, count: usize) -> Workload {
    let mut rng = rng(3);
    let mut stream = Vec::new();
    for line in 0..LINES {
        stream.extend_from_slice(&[0x1E, 32, line + 32]);
        stream.extend(letters(&mut rng, COLUMNS - 1));
    }
    if !area.viewport.is_empty() {
        stream.push(0x02);
        stream.extend_from_slice(area.viewport);
    }
    stream.extend_from_slice(&[0x1E, 32, cursor_line + 32]);
    stream.resize(stream.len() + count, code);
    workload(&format!("{}, scrolled {}", area.name, direction), "scroll", count, stream)
}

/// The cursor set anywhere, and ten letters.
fn addressed(bytes: usize) -> Workload {
    let mut rng = rng(4);
    let mut stream = Vec::new();
    let mut count = 0;
    while stream.len() < bytes {
        place_and_print(&mut rng, &mut stream, 10);
        count += 1;
    }
    workload("addressed updates", "update", count, stream)
}

/// The cursor set anywhere, four letters and one of the erases.
fn erases(bytes: usize) -> Workload {
    let mut rng = rng(5);
    let mut stream = Vec::new();
    let mut count = 0;
    while stream.len() < bytes {
        place_and_print(&mut rng, &mut stream, 4);
        stream.push(rng.pick(&ERASES));
        count += 1;
    }
    workload("erases", "erase", count, stream)
}

fn place_and_print(rng: &mut Rng, stream: &mut Vec<u8>, count: u64) {
    let column = rng.below(COLUMNS - count) as u8;
    let line = rng.below(LINES as u64) as u8;
    stream.extend_from_slice(&[0x1E, 32 + column, 32 + line]);
    stream.extend(letters(rng, count));
}
