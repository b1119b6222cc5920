//! Sets of screen lines, as marks have them: line r is bit r.

use crate::port::{Rectangle, SCREEN_SIZE};
use std::ops::Range;

pub const ALL_LINES: u32 = 0xFF_FFFF;

/// The lines that a rectangle lies on.
pub fn lines_of(rectangle: Rectangle) -> u32 {
    (rectangle.top..=rectangle.bottom).fold(0, |lines, line| lines | 1 << line)
}

/// Where the cells of each line of a set lie. A screen has 24 lines, so
/// other bits stand for none.
pub fn places(lines: u32) -> impl Iterator<Item = Range<usize>> {
    (0..24).filter(move |line| lines >> line & 1 == 1).map(|line| line * 80..line * 80 + 80)
}

/// The lines on which two screens differ; none where one has another
/// length, and so no lines.
pub fn differing(one: &[u8], other: &[u8]) -> u32 {
    if one.len() != SCREEN_SIZE || other.len() != SCREEN_SIZE {
        return 0;
    }
    let differs = |place: &Range<usize>| one[place.clone()] != other[place.clone()];
    places(ALL_LINES).filter(differs).fold(0, |lines, place| lines | 1 << (place.start / 80))
}

/// The numbers of the lines, with all 32 bits shown: `0-3 7`, or `none`.
pub fn in_words(lines: u32) -> String {
    let has = |line: u32| line < 32 && lines >> line & 1 == 1;
    let mut words = Vec::new();
    for first in (0..32).filter(|&line| has(line) && !(line > 0 && has(line - 1))) {
        match (first..32).take_while(|&line| has(line)).last() {
            Some(last) if last > first => words.push(format!("{}-{}", first, last)),
            _ => words.push(first.to_string()),
        }
    }
    if words.is_empty() {
        return "none".to_string();
    }
    words.join(" ")
}
