//! What a console program should print for an input, by the reference,
//! and which lines should be marked in the end.

use crate::console::{take_marks, write};
use crate::lines::in_words;
use crate::port::{cell, Cursor, Port, BLANK, SCREEN_SIZE};

/// Bytes of the input past this many are not read.
pub const INPUT_LIMIT: usize = 1_048_576;

const HEX_DIGITS: [char; 16] =
    ['0', '1', '2', '3', '4', '5', '6', '7', '8', '9', 'a', 'b', 'c', 'd', 'e', 'f'];

#[derive(Clone, PartialEq, Eq)]
pub struct Output {
    /// All that a console program prints: 24 lines of 160 hex digits, then
    /// one for the cursor and the bells.
    pub printed: String,
    /// One line more, for the library alone: which lines are marked, and
    /// how many the taking counts.
    pub marks: String,
}

/// The part of an input that is read.
pub fn read(input: &[u8]) -> &[u8] {
    &input[..input.len().min(INPUT_LIMIT)]
}

/// The output for an input fed in one write.
pub fn whole(input: &[u8]) -> Output {
    without_limit(read(input))
}

/// The same for an input of any length, all of it read.
pub fn without_limit(input: &[u8]) -> Output {
    let mut screen = [BLANK; SCREEN_SIZE];
    let (status, port, bells) = write(Port::fresh(), &mut screen, input);
    assert_eq!(status, 0, "the reference refused a fresh console");
    output(&screen, port, bells)
}

/// The output for an input fed one byte a write. Before each
/// byte `see` is shown the port and the byte.
pub fn cut(input: &[u8], mut see: impl FnMut(&Port, u8)) -> Output {
    let mut screen = [BLANK; SCREEN_SIZE];
    let mut port = Port::fresh();
    let mut bells = 0;
    for &byte in read(input) {
        see(&port, byte);
        let (status, after, rung) = write(port, &mut screen, &[byte]);
        assert_eq!(status, 0, "the reference refused its own port");
        port = after;
        bells += rung;
    }
    output(&screen, port, bells)
}

fn output(screen: &[u8], port: Port, bells: usize) -> Output {
    let (status, after, marks, count) = take_marks(port);
    assert_eq!((status, after.marks), (0, 0), "the reference did not take its own marks");
    Output { printed: print(screen, port.state.cursor, bells), marks: print_marks(marks, count) }
}

pub fn print(screen: &[u8], at: Cursor, bells: usize) -> String {
    let mut text = String::new();
    for line in 0..24 {
        for column in 0..80 {
            let byte = screen[cell(column, line)];
            text.push(HEX_DIGITS[byte as usize / 16]);
            text.push(HEX_DIGITS[byte as usize % 16]);
        }
        text.push('\n');
    }
    text.push_str(&format!("cursor {} {} bells {}\n", at.column, at.line, bells));
    text
}

pub fn print_marks(marks: u32, count: usize) -> String {
    format!("marked {} count {}\n", in_words(marks), count)
}
