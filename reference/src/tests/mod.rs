//! Tests whose expected values are worked out by hand from the rules.

mod blocks;
mod codes;
mod examples;
mod field_keys;
mod field_refusals;
mod high_codes;
mod marks;
mod marks_taking;
mod modes;
mod moves;
mod multiplexer_marks;
mod multiplexer_panes;
mod multiplexer_refusals;
mod multiplexer_validity;
mod multiplexers;
mod program;
mod refusals;
mod script_marks;
mod scripts;
mod stored;
mod validity;
mod viewports;

use crate::console::{write, write_byte};
use crate::port::{cell, Cursor, Port, Rectangle, BLANK, SCREEN_SIZE};

/// A port and a screen, as they stand before or after a stream.
#[derive(Clone)]
pub struct Console {
    pub port: Port,
    pub screen: Vec<u8>,
}

pub fn rectangle(left: u8, top: u8, right: u8, bottom: u8) -> Rectangle {
    Rectangle { left, top, right, bottom }
}

/// The marks of the lines from `top` to `bottom`, both included.
pub fn lines(top: u8, bottom: u8) -> u32 {
    let mut marks = 0;
    for line in top..=bottom {
        marks |= 1 << line;
    }
    marks
}

/// A fresh console on a blank screen.
pub fn fresh() -> Console {
    Console { port: Port::fresh(), screen: vec![BLANK; SCREEN_SIZE] }
}

/// A screen without a blank, neighbouring cells different.
pub fn patterned() -> Vec<u8> {
    let mut screen = Vec::new();
    for place in 0..SCREEN_SIZE {
        screen.push((place * 3 % 113) as u8);
    }
    screen
}

/// A fresh port in the given home, on a patterned screen.
pub fn fresh_in(home: Rectangle) -> Console {
    Console { port: Port::fresh_in(home), screen: patterned() }
}

/// The viewport (10,5,12,7) holding abc, def, ghi; the cursor is on the e.
/// Home is the whole screen, and the rest of the screen is patterned.
pub fn small() -> Console {
    let mut console = fresh_in(rectangle(0, 0, 79, 23));
    console.port.state.viewport = rectangle(10, 5, 12, 7);
    console.cursor(11, 6).rows([b"abc", b"def", b"ghi"]);
    console
}

impl Console {
    pub fn cursor(&mut self, column: u8, line: u8) -> &mut Console {
        self.port.state.cursor = Cursor { column, line };
        self
    }

    pub fn store(&mut self, column: u8, line: u8, byte: u8) -> &mut Console {
        self.screen[cell(column, line)] = byte;
        self
    }

    /// Stores three lines at (10,5); a dot stands for a blank.
    pub fn rows(&mut self, rows: [&[u8; 3]; 3]) -> &mut Console {
        for line in 0..3 {
            for column in 0..3 {
                let byte = rows[line][column];
                let byte = if byte == b'.' { BLANK } else { byte };
                self.store(10 + column as u8, 5 + line as u8, byte);
            }
        }
        self
    }

    /// Marks the lines from `top` to `bottom`, both included.
    pub fn mark(&mut self, top: u8, bottom: u8) -> &mut Console {
        self.port.marks |= lines(top, bottom);
        self
    }

    pub fn scroll(&mut self, on: bool) -> &mut Console {
        self.port.state.flags.scroll = on;
        self
    }

    pub fn wrap(&mut self, on: bool) -> &mut Console {
        self.port.state.flags.wrap = on;
        self
    }

    /// The same console after a change made on a copy.
    pub fn but(&self, change: impl Fn(&mut Console)) -> Console {
        let mut copy = self.clone();
        change(&mut copy);
        copy
    }
}

/// Hands the stream over in pieces and compares every cell, the whole
/// port and the sum of the bells.
fn check_pieces(start: &Console, pieces: &[&[u8]], end: &Console, bells: usize) {
    let mut port = start.port;
    let mut screen = start.screen.clone();
    let mut rung = 0;
    for piece in pieces {
        let (status, after, count) = write(port, &mut screen, piece);
        assert_eq!(status, 0, "status, pieces {:02X?}", pieces);
        assert!(after.valid(), "validity, pieces {:02X?}", pieces);
        port = after;
        rung += count;
    }
    assert_eq!(port, end.port, "port, pieces {:02X?}", pieces);
    assert_eq!(rung, bells, "bells, pieces {:02X?}", pieces);
    for place in 0..SCREEN_SIZE {
        let (column, line) = (place % 80, place / 80);
        let (got, wanted) = (screen[place], end.screen[place]);
        assert_eq!(got, wanted, "cell ({},{}), pieces {:02X?}", column, line, pieces);
    }
}

/// Runs the stream whole, cut once after every byte, cut after each
/// byte, and by the one-byte call; all must reach the same end.
pub fn check(start: &Console, bytes: &[u8], end: &Console, bells: usize) {
    check_pieces(start, &[bytes], end, bells);
    for place in 0..=bytes.len() {
        check_pieces(start, &[&bytes[..place], &bytes[place..]], end, bells);
    }
    let single: Vec<&[u8]> = bytes.chunks(1).collect();
    check_pieces(start, &single, end, bells);

    let mut port = start.port;
    let mut screen = start.screen.clone();
    let mut rung = 0;
    for byte in bytes {
        let (status, count) = write_byte(&mut port, &mut screen, *byte);
        assert_eq!(status, 0, "one-byte call, {:02X?}", bytes);
        rung += count;
    }
    assert_eq!(port, end.port, "port by one-byte calls, {:02X?}", bytes);
    assert_eq!(screen, end.screen, "screen by one-byte calls, {:02X?}", bytes);
    assert_eq!(rung, bells, "bells by one-byte calls, {:02X?}", bytes);
}

/// A stream that must change nothing and ring nothing.
pub fn check_idle(start: &Console, bytes: &[u8]) {
    check(start, bytes, start, 0);
}
