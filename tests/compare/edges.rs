//! The library's stream calls at their edges: an answer lent too short or
//! longer than needed, writes of no size, and screens of another length.

use crate::console::write;
use crate::library::{run_stream, Feed, STREAM_ANSWER};
use crate::port::{Port, BLANK, SCREEN_SIZE};
use crate::subjects::FEEDS;

/// Lengths of screens that are refused.
pub const OTHER_LENGTHS: [usize; 5] = [0, 1, SCREEN_SIZE - 1, SCREEN_SIZE + 1, 2 * SCREEN_SIZE];

/// Text on lines 0 and 20, a bell and a move of the cursor: each would show.
const STREAM: [u8; 6] = [0x41, 0x07, 0x1E, 0x25, 0x34, 0x42];

/// The answer to it on a right screen.
const ANSWER: [u8; STREAM_ANSWER] = [0, 1, 0, 0, 0, 6, 20, 0x01, 0x00, 0x10, 0x00, 2];

/// The bytes of an answer before the call.
const LENT: u8 = 0x5A;

pub fn short_answers() -> Vec<String> {
    let mut faults = Vec::new();
    for feed in FEEDS {
        for lent in 0..STREAM_ANSWER {
            if !is_refused(feed, lent) {
                faults.push(format!("{:?}: an answer of {} bytes is not refused", feed, lent));
            }
        }
    }
    faults
}

pub fn writes_of_no_size() -> Vec<String> {
    match is_refused(Feed::Writes(0), STREAM_ANSWER) {
        true => Vec::new(),
        false => vec!["writes of 0 bytes are not refused".to_string()],
    }
}

/// Gives 0, and leaves the screen and the lent answer as they were.
fn is_refused(feed: Feed, lent: usize) -> bool {
    let mut screen = [BLANK; SCREEN_SIZE];
    let mut answer = vec![LENT; lent];
    let length = run_stream(&STREAM, feed, &mut screen, &mut answer);
    length == 0 && screen == [BLANK; SCREEN_SIZE] && answer == vec![LENT; lent]
}

pub fn longer_answer() -> Vec<String> {
    let mut faults = Vec::new();
    for feed in FEEDS {
        let mut screen = [BLANK; SCREEN_SIZE];
        let mut answer = [LENT; STREAM_ANSWER + 2];
        let length = run_stream(&STREAM, feed, &mut screen, &mut answer);
        if length != STREAM_ANSWER || answer[..] != [&ANSWER[..], &[LENT; 2]].concat() {
            faults.push(format!(
                "{:?}: {} and the answer {:02x?} of {} lent bytes",
                feed,
                length,
                answer,
                answer.len()
            ));
        }
    }
    faults
}

pub fn other_screens() -> Vec<String> {
    let mut faults = Vec::new();
    for length in OTHER_LENGTHS {
        for feed in FEEDS {
            for stream in [&STREAM[..], &[]] {
                let mut screen = vec![BLANK; length];
                let mut answer = [LENT; STREAM_ANSWER];
                let given = run_stream(stream, feed, &mut screen, &mut answer);
                let mut wanted = [0; STREAM_ANSWER];
                wanted[0] = refusal(stream, feed, length);
                if given != STREAM_ANSWER || answer != wanted || screen != vec![BLANK; length] {
                    faults.push(format!(
                        "a screen of {} bytes, {:?}, {} bytes: {} and the answer {:02x?}",
                        length,
                        feed,
                        stream.len(),
                        given,
                        answer
                    ));
                }
            }
        }
    }
    faults
}

/// The status on a screen of another length. No bytes are one empty write,
/// which is refused as any other, but no call at all of the one-byte call.
fn refusal(stream: &[u8], feed: Feed, length: usize) -> u8 {
    if feed == Feed::Bytes && stream.is_empty() {
        return 0;
    }
    write(Port::fresh(), &mut vec![BLANK; length], stream).0
}
