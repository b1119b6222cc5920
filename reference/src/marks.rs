//! A port's marks: the screen lines that had a cell stored to since the
//! marks were last taken. Line r is bit r, line 0 the lowest.
//!
//! Every cell is stored by the one function here, so no store goes without
//! its mark, and a scroll, which stores to the whole viewport, marks it all.

use crate::port::{cell, Port, Rectangle};

fn mark(line: u8) -> u32 {
    1 << line
}

/// Stores a byte for this port, and marks the line even if the byte was equal.
pub fn store(port: &mut Port, screen: &mut [u8], column: u8, line: u8, byte: u8) {
    screen[cell(column, line)] = byte;
    port.marks |= mark(line);
}

/// Whether no line outside home is marked. The top eight bits are no
/// screen line's, so they are outside every home.
pub fn inside(marks: u32, home: Rectangle) -> bool {
    for line in 0..32 {
        let in_home = home.top <= line && line <= home.bottom;
        if marks & mark(line) != 0 && !in_home {
            return false;
        }
    }
    true
}
