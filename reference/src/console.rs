//! The write call: what each byte does to the screen and the port. Then the
//! call that takes the port's marks.

use crate::cells::{erase, scroll_down, scroll_up, shift};
use crate::cursor::{cursor_to_top_left, set_column, set_line};
use crate::cursor::{down_one, left_one, right_one, up_one};
use crate::marks::store;
use crate::port::{parameters_needed, Port, Rectangle, State, SCREEN_SIZE};
use crate::stored::stored_byte;

/// Hands a stream to a port. Gives the status, the port afterwards and
/// the number of bells rung.
pub fn write(port: Port, screen: &mut [u8], bytes: &[u8]) -> (u8, Port, usize) {
    if screen.len() != SCREEN_SIZE {
        return (1, port, 0);
    }
    if !port.valid() {
        return (2, port, 0);
    }
    let mut port = port;
    let mut bells = 0;
    for &byte in bytes {
        take_byte(&mut port, screen, &mut bells, byte);
    }
    (0, port, bells)
}

/// The one-byte call: a write of that byte on a port changed in place.
#[cfg_attr(not(test), allow(dead_code))]
pub fn write_byte(port: &mut Port, screen: &mut [u8], byte: u8) -> (u8, usize) {
    let (status, after, bells) = write(*port, screen, &[byte]);
    *port = after;
    (status, bells)
}

/// Takes the port's marks, so that none is left. No screen is lent, so
/// refusal 2 only. Gives the status, the port, the marks and how many lines
/// are marked.
pub fn take_marks(port: Port) -> (u8, Port, u32, usize) {
    if !port.valid() {
        return (2, port, 0, 0);
    }
    let taken = port.marks;
    (0, Port { marks: 0, ..port }, taken, taken.count_ones() as usize)
}

/// A byte is a parameter if a command waits, whatever its value;
/// otherwise it is a code, and waits if it takes parameters itself.
fn take_byte(port: &mut Port, screen: &mut [u8], bells: &mut usize, byte: u8) {
    if port.waiting != 0 {
        port.parameters[port.gathered as usize] = byte;
        port.gathered += 1;
        if port.gathered == parameters_needed(port.waiting) {
            let code = port.waiting;
            let parameters = port.parameters;
            port.waiting = 0;
            port.gathered = 0;
            port.parameters = [0, 0, 0, 0];
            execute(port, screen, bells, code, parameters);
        }
    } else if parameters_needed(byte) > 0 {
        port.waiting = byte;
    } else {
        execute(port, screen, bells, byte, [0, 0, 0, 0]);
    }
}

/// Does what one code says, its parameters being complete.
fn execute(port: &mut Port, screen: &mut [u8], bells: &mut usize, code: u8, parameters: [u8; 4]) {
    let viewport = port.state.viewport;
    let at = port.state.cursor;
    match code {
        // The four idle codes.
        0x00 => {}
        0x09 => {}
        0x11 => {}
        0x12 => {}
        // The saved port and the viewport.
        0x01 => {
            port.saved = port.state;
            port.has_saved = true;
            port.state = State::default_in(port.home);
        }
        0x04 => {
            if port.has_saved {
                port.state = port.saved;
            } else {
                port.state = State::default_in(port.home);
            }
        }
        0x02 => set_viewport(port, parameters),
        // Erasing.
        0x03 => erase(port, screen, |column, line| line == at.line && column <= at.column),
        0x1D => erase(port, screen, |column, line| line == at.line && column >= at.column),
        0x1A => erase(port, screen, |_, line| line == at.line),
        0x13 => erase(port, screen, |column, line| {
            line < at.line || (line == at.line && column <= at.column)
        }),
        0x0B => erase(port, screen, |column, line| {
            line > at.line || (line == at.line && column >= at.column)
        }),
        0x0C => {
            erase(port, screen, |_, _| true);
            cursor_to_top_left(port);
        }
        // Moving the viewport's cells.
        0x05 => shift(port, screen, parameters[0]),
        0x16 => scroll_down(port, screen),
        0x17 => scroll_up(port, screen),
        // Placing the cursor.
        0x06 => set_line(port, parameters[0]),
        0x14 => set_column(port, parameters[0]),
        0x1E => {
            set_column(port, parameters[0]);
            set_line(port, parameters[1]);
        }
        0x19 => cursor_to_top_left(port),
        // Moving the cursor.
        0x08 => left_one(port, screen),
        0x1C => right_one(port, screen),
        0x0A => down_one(port, screen),
        0x1F => up_one(port, screen),
        0x0D => {
            port.state.cursor.column = viewport.left;
            if port.state.flags.lf {
                down_one(port, screen);
            }
        }
        // Modes, flags and the bell.
        0x07 => *bells += 1,
        0x0E => port.state.inverse = false,
        0x0F => port.state.inverse = true,
        0x1B => port.state.mousetext = true,
        0x18 => port.state.mousetext = false,
        0x15 => {
            port.state.flags.dle = parameters[0] & 0b10000 != 0;
            port.state.flags.scroll = parameters[0] & 0b01000 != 0;
            port.state.flags.wrap = parameters[0] & 0b00100 != 0;
            port.state.flags.lf = parameters[0] & 0b00010 != 0;
            port.state.flags.advance = parameters[0] & 0b00001 != 0;
        }
        // Printing.
        0x10 => {
            if port.state.flags.dle && parameters[0] >= 32 {
                for _ in 0..parameters[0] - 32 {
                    print(port, screen, 0x20);
                }
            }
        }
        0x20..=0xFF => print(port, screen, code),
    }
}

/// Stores at the cursor, then moves right if advance is on.
fn print(port: &mut Port, screen: &mut [u8], code: u8) {
    let at = port.state.cursor;
    let byte = stored_byte(code, port.state.inverse, port.state.mousetext);
    store(port, screen, at.column, at.line, byte);
    if port.state.flags.advance {
        right_one(port, screen);
    }
}

/// $02: all four from 32 to 127, each then moved to the nearest column
/// or line of home; a crossed or one-cell-thin rectangle is ignored.
fn set_viewport(port: &mut Port, parameters: [u8; 4]) {
    for parameter in parameters {
        if parameter < 32 || parameter > 127 {
            return;
        }
    }
    let home = port.home;
    let left = nearest(parameters[0] - 32, home.left, home.right);
    let top = nearest(parameters[1] - 32, home.top, home.bottom);
    let right = nearest(parameters[2] - 32, home.left, home.right);
    let bottom = nearest(parameters[3] - 32, home.top, home.bottom);
    if right <= left || bottom <= top {
        return;
    }
    port.state.viewport = Rectangle { left, top, right, bottom };
    cursor_to_top_left(port);
}

fn nearest(value: u8, first: u8, last: u8) -> u8 {
    if value < first {
        first
    } else if value > last {
        last
    } else {
        value
    }
}
