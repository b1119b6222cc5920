//! A script of calls on a fresh multiplexer, and the answers, both as bytes.
//!
//! A call is its kind, a client, and then for an open (0) the pane's left,
//! top, right and bottom, for a close (1) or a taking of marks (5) nothing,
//! and for a write (2), block return (3) or block restore (4) a length of
//! two bytes, low byte first, and that many bytes.
//!
//! An answer is the status, the count, the marks that the call returned (0
//! unless it is a taking), for a block return the lent block afterwards,
//! then the marks that each of the four slots' ports holds after the call,
//! and every cell of the screen. Counts and marks are four bytes each, low
//! byte first.

use crate::multiplexer::{self, Multiplexer};
use crate::port::Rectangle;

enum Call<'a> {
    Open(Rectangle),
    Close,
    Write(&'a [u8]),
    BlockReturn(&'a [u8]),
    BlockRestore(&'a [u8]),
    TakeMarks,
}

/// Runs the calls in order, each on the multiplexer and screen that the
/// one before left. A call that is cut off or unknown ends the run.
pub fn run_script(script: &[u8], screen: &mut [u8]) -> Vec<u8> {
    let mut multiplexer = Multiplexer::fresh();
    let mut answers = Vec::new();
    let mut rest = script;
    while let Some((client, call)) = take_call(&mut rest) {
        let mut marks = 0;
        let mut lent = Vec::new();
        let (status, after, count) = match call {
            Call::Open(pane) => multiplexer::open(multiplexer, screen, client, pane),
            Call::Close => multiplexer::close(multiplexer, client),
            Call::Write(bytes) => multiplexer::write(multiplexer, screen, client, bytes),
            Call::BlockReturn(block) => {
                lent = block.to_vec();
                multiplexer::block_return(multiplexer, screen, client, &mut lent)
            }
            Call::BlockRestore(block) => {
                multiplexer::block_restore(multiplexer, screen, client, block)
            }
            Call::TakeMarks => {
                let (status, after, taken, count) = multiplexer::take_marks(multiplexer, client);
                marks = taken;
                (status, after, count)
            }
        };
        multiplexer = after;
        answers.push(status);
        answers.extend_from_slice(&(count as u32).to_le_bytes());
        answers.extend_from_slice(&marks.to_le_bytes());
        answers.extend_from_slice(&lent);
        for slot in multiplexer.slots {
            answers.extend_from_slice(&slot.port.marks.to_le_bytes());
        }
        answers.extend_from_slice(screen);
    }
    answers
}

/// The next call and its client; none at the end of the script, in a call
/// that is cut off, or at an unknown kind.
fn take_call<'a>(rest: &mut &'a [u8]) -> Option<(u8, Call<'a>)> {
    let kind = take_byte(rest)?;
    let client = take_byte(rest)?;
    let call = match kind {
        0 => {
            let left = take_byte(rest)?;
            let top = take_byte(rest)?;
            let right = take_byte(rest)?;
            let bottom = take_byte(rest)?;
            Call::Open(Rectangle { left, top, right, bottom })
        }
        1 => Call::Close,
        2 => Call::Write(take_bytes(rest)?),
        3 => Call::BlockReturn(take_bytes(rest)?),
        4 => Call::BlockRestore(take_bytes(rest)?),
        5 => Call::TakeMarks,
        6..=255 => return None,
    };
    Some((client, call))
}

fn take_byte(rest: &mut &[u8]) -> Option<u8> {
    let script = *rest;
    if script.is_empty() {
        return None;
    }
    *rest = &script[1..];
    Some(script[0])
}

/// A length and as many bytes as it says.
fn take_bytes<'a>(rest: &mut &'a [u8]) -> Option<&'a [u8]> {
    let low = take_byte(rest)?;
    let high = take_byte(rest)?;
    let length = low as usize + high as usize * 256;
    let script = *rest;
    if script.len() < length {
        return None;
    }
    *rest = &script[length..];
    Some(&script[..length])
}
