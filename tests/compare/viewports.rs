//! Scrolls every viewport that there is, up and down. How a scroll moves
//! cells depends on the viewport's width, and how the compiler renders it
//! lies outside the proofs: so none is left to chance.

use crate::console::write;
use crate::library::{run_stream, Feed, STREAM_ANSWER};
use crate::port::{Port, SCREEN_SIZE};

const COLUMNS: u8 = 80;
const LINES: u8 = 24;

const SCROLL_DOWN: u8 = 0x16;
const SCROLL_UP: u8 = 0x17;

/// Odd, so that cells less than 256 apart differ.
const STEP: usize = 101;

/// Compares library and reference, prints the first fault and a line at
/// the end, and tells whether all is well.
pub fn viewports() -> bool {
    let mut scrolls: u64 = 0;
    let mut faults: u64 = 0;
    for_each_viewport(|viewport| {
        for code in [SCROLL_UP, SCROLL_DOWN] {
            scrolls += 1;
            if let Some(fault) = fault(viewport, code) {
                faults += 1;
                if faults == 1 {
                    println!("viewport {:?}, code {:02x}: {}", viewport, code, fault);
                }
            }
        }
    });
    if faults > 0 {
        println!("scrolls that end differently: {}", faults);
    }
    println!("viewports: {} scrolls", scrolls);
    faults == 0
}

/// Left, top, right, bottom: at least two columns and two lines.
fn for_each_viewport(mut visit: impl FnMut([u8; 4])) {
    for left in 0..COLUMNS {
        for right in left + 1..COLUMNS {
            for top in 0..LINES {
                for bottom in top + 1..LINES {
                    visit([left, top, right, bottom]);
                }
            }
        }
    }
}

/// How the library's screen differs from the reference's after one scroll.
fn fault(viewport: [u8; 4], code: u8) -> Option<String> {
    let [left, top, right, bottom] = viewport.map(|edge| edge + 32);
    let stream = [0x02, left, top, right, bottom, code];
    let (mut wanted, mut screen) = (filled(), filled());
    let (status, _, _) = write(Port::fresh(), &mut wanted, &stream);
    let mut answer = [0; STREAM_ANSWER];
    run_stream(&stream, Feed::Writes(stream.len()), &mut screen, &mut answer);
    if answer[0] != status {
        return Some(format!("status {} instead of {}", answer[0], status));
    }
    let cell = (0..SCREEN_SIZE).find(|&cell| screen[cell] != wanted[cell])?;
    Some(format!("cell {} holds {:02x} instead of {:02x}", cell, screen[cell], wanted[cell]))
}

fn filled() -> [u8; SCREEN_SIZE] {
    std::array::from_fn(|cell| (cell * STEP) as u8)
}
