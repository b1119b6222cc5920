//! What surrounds the calls of a random run: the lent screen, the end of
//! the script, and the room for answers.

use super::call::{Call, KINDS};
use crate::edges::OTHER_LENGTHS;
use crate::port::{BLANK, SCREEN_SIZE};
use crate::rng::Rng;

/// Enough for the answer of any further call, so that it would show.
const ROOM_FOR_MORE: isize = 70_000;

/// Mostly of the right length; blank or not.
pub fn lent_screen(rng: &mut Rng) -> Vec<u8> {
    let length = if rng.once_in(16) {
        OTHER_LENGTHS[rng.below(OTHER_LENGTHS.len() as u64) as usize]
    } else {
        SCREEN_SIZE
    };
    if rng.once_in(2) {
        vec![BLANK; length]
    } else {
        rng.bytes(length)
    }
}

/// What follows the calls: one of them cut off, an unknown kind and one of
/// them, or nothing; and how much room is spare for answers.
pub fn ending(rng: &mut Rng, calls: &[Call]) -> (Vec<u8>, isize) {
    match rng.below(10) {
        0 => {
            let mut call = any_of(rng, calls);
            call.truncate(1 + rng.below(call.len() as u64 - 1) as usize);
            (call, ROOM_FOR_MORE)
        }
        1 => {
            let first = KINDS.len() as u8;
            let any = rng.between(first, 255);
            let unknown = rng.pick(&[first, 255, any]);
            let call = any_of(rng, calls);
            ([&[unknown, call[1]], &call[..]].concat(), ROOM_FOR_MORE)
        }
        2 => (Vec::new(), -1),
        3 => (Vec::new(), -(rng.below(20_000) as isize)),
        4..=6 => (Vec::new(), rng.below(100) as isize),
        _ => (Vec::new(), 0),
    }
}

/// The bytes of one of the calls, or of a close.
fn any_of(rng: &mut Rng, calls: &[Call]) -> Vec<u8> {
    let place = rng.below(calls.len() as u64 + 1) as usize;
    calls.get(place).map_or(vec![1, 1], Call::bytes)
}
