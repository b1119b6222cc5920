//! Scripts of calls by client, as the library `boundary` runs them.

use crate::library::run_script;
use crate::port::{BLANK, SCREEN_SIZE};

const CLIENT: u8 = 7;

/// The status, then numbers of four bytes each: a count, the marks that
/// the call returned and those that four slots hold; and the screen.
const ANSWER: usize = 1 + 4 * (1 + 1 + 4) + SCREEN_SIZE;

/// Opens the client on the whole screen and writes each byte by a call of
/// its own.
pub fn one_byte_writes(stream: &[u8]) -> Vec<u8> {
    let mut script = vec![0, CLIENT, 0, 0, 79, 23];
    for &byte in stream {
        script.extend_from_slice(&[2, CLIENT, 1, 0, byte]);
    }
    script
}

/// How many bytes its answers are.
pub fn room(stream: &[u8]) -> usize {
    (1 + stream.len()) * ANSWER
}

/// Fails unless each call is made: a refusal would be counted as a quick
/// call. The status is 1, and so not 0, where there is no answer.
pub fn check(stream: &[u8]) -> Result<(), String> {
    let mut answers = vec![1; room(stream)];
    run_script(&one_byte_writes(stream), &mut [BLANK; SCREEN_SIZE], &mut answers);
    if answers.chunks(ANSWER).all(|answer| answer[0] == 0) {
        return Ok(());
    }
    Err("a call by client is refused or missing".to_string())
}
