//! The answer to a call, in its parts.

use super::call::Call;
use crate::library::number;

pub struct Answer<'a> {
    pub status: u8,
    pub count: u32,
    /// The marks that a taking returned; 0 for any other call.
    pub marks: u32,
    /// The block lent for a return, afterwards; empty for any other call.
    pub block: &'a [u8],
    /// The marks that each slot's port holds after the call.
    pub held: [u32; 4],
    pub cells: &'a [u8],
}

/// The status, the count, the returned marks, and those of four slots.
const NUMBERS: usize = 1 + 4 + 4 + 4 * 4;

/// How many bytes answer this call on a screen of this length.
pub fn length(call: &Call, screen_length: usize) -> usize {
    NUMBERS + call.returned_length() + screen_length
}

impl Answer<'_> {
    /// The parts of the bytes that answer this call.
    pub fn new<'a>(call: &Call, bytes: &'a [u8]) -> Answer<'a> {
        let (head, rest) = bytes.split_at(9);
        let (block, rest) = rest.split_at(call.returned_length());
        let (held, cells) = rest.split_at(16);
        Answer {
            status: head[0],
            count: number(&head[1..5]),
            marks: number(&head[5..9]),
            block,
            held: [0, 4, 8, 12].map(|place| number(&held[place..place + 4])),
            cells,
        }
    }
}
