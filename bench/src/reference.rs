//! The reference program's console, fed in the same ways as the library.

use crate::console::{take_marks, write, write_byte};
use crate::feed::{Answer, Feed};
use crate::port::Port;

pub fn run(stream: &[u8], feed: Feed, screen: &mut [u8]) -> Answer {
    match feed {
        Feed::Writes(size) => in_writes(stream, size, screen),
        Feed::Bytes => in_bytes(stream, screen),
    }
}

fn in_writes(stream: &[u8], size: usize, screen: &mut [u8]) -> Answer {
    let mut port = Port::fresh();
    let mut bells = 0;
    for piece in stream.chunks(size) {
        let (status, after, rung) = write(port, screen, piece);
        if status != 0 {
            return refused(status);
        }
        port = after;
        bells += rung;
    }
    answer(port, bells)
}

fn in_bytes(stream: &[u8], screen: &mut [u8]) -> Answer {
    let mut port = Port::fresh();
    let mut bells = 0;
    for &byte in stream {
        let (status, rung) = write_byte(&mut port, screen, byte);
        if status != 0 {
            return refused(status);
        }
        bells += rung;
    }
    answer(port, bells)
}

/// Takes the marks in the end, as the library does.
fn answer(port: Port, bells: usize) -> Answer {
    let (status, after, marks, count) = take_marks(port);
    let mut answer = [0; 12];
    answer[0] = status;
    answer[1..5].copy_from_slice(&(bells as u32).to_le_bytes());
    answer[5] = after.state.cursor.column;
    answer[6] = after.state.cursor.line;
    answer[7..11].copy_from_slice(&marks.to_le_bytes());
    answer[11] = count as u8;
    answer
}

fn refused(status: u8) -> Answer {
    let mut answer = [0; 12];
    answer[0] = status;
    answer
}
