//! What a stream leaves behind, and how two such ends differ.

use crate::clock::nanoseconds;
use crate::feed::Answer;
use crate::port::{BLANK, SCREEN_SIZE};

#[derive(Clone, PartialEq, Eq)]
pub struct End {
    pub screen: [u8; SCREEN_SIZE],
    answer: Answer,
}

/// Feeds a blank screen, and tells the end and the nanoseconds of the
/// feeding alone.
pub fn timed(feed: impl FnOnce(&mut [u8]) -> Answer) -> (End, u64) {
    let mut screen = [BLANK; SCREEN_SIZE];
    let before = nanoseconds();
    let answer = feed(&mut screen);
    let spent = nanoseconds() - before;
    (End { screen, answer }, spent)
}

pub fn end_of(feed: impl FnOnce(&mut [u8]) -> Answer) -> End {
    timed(feed).0
}

impl End {
    /// None if the given end is this one.
    pub fn difference(&self, given: &End) -> Option<String> {
        if self.answer != given.answer {
            return Some(format!(
                "status, bells, column, line, marks and their number are {:?} instead of {:?}",
                given.answer, self.answer
            ));
        }
        let cell = (0..SCREEN_SIZE).find(|&cell| self.screen[cell] != given.screen[cell])?;
        Some(format!(
            "line {} column {} holds {:02x} instead of {:02x}",
            cell / 80,
            cell % 80,
            given.screen[cell],
            self.screen[cell]
        ))
    }
}
