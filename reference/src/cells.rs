//! Erasing, scrolling and shifting the cells of a port's viewport.

use crate::marks::store;
use crate::port::{cell, Port, BLANK};

/// Stores a blank in each cell of the viewport that is asked for.
pub fn erase(port: &mut Port, screen: &mut [u8], asked: impl Fn(u8, u8) -> bool) {
    let viewport = port.state.viewport;
    for line in viewport.top..=viewport.bottom {
        for column in viewport.left..=viewport.right {
            if asked(column, line) {
                store(port, screen, column, line, BLANK);
            }
        }
    }
}

/// $16: lines move down one, from the bottom line upwards; the top is blank.
pub fn scroll_down(port: &mut Port, screen: &mut [u8]) {
    let viewport = port.state.viewport;
    for line in (viewport.top + 1..=viewport.bottom).rev() {
        for column in viewport.left..=viewport.right {
            let above = screen[cell(column, line - 1)];
            store(port, screen, column, line, above);
        }
    }
    for column in viewport.left..=viewport.right {
        store(port, screen, column, viewport.top, BLANK);
    }
}

/// $17: lines move up one, from the top line downwards; the bottom is blank.
pub fn scroll_up(port: &mut Port, screen: &mut [u8]) {
    let viewport = port.state.viewport;
    for line in viewport.top..viewport.bottom {
        for column in viewport.left..=viewport.right {
            let below = screen[cell(column, line + 1)];
            store(port, screen, column, line, below);
        }
    }
    for column in viewport.left..=viewport.right {
        store(port, screen, column, viewport.bottom, BLANK);
    }
}

/// $05: the parameter is a signed byte; positive shifts to the right. A
/// shift by 0 stores nothing.
pub fn shift(port: &mut Port, screen: &mut [u8], parameter: u8) {
    match parameter {
        0 => {}
        1..=127 => shift_right(port, screen, parameter),
        128..=255 => shift_left(port, screen, (256 - parameter as u16) as u8),
    }
}

/// Each cell takes the one `amount` columns to its left, or a blank.
fn shift_right(port: &mut Port, screen: &mut [u8], amount: u8) {
    let viewport = port.state.viewport;
    for line in viewport.top..=viewport.bottom {
        for column in (viewport.left..=viewport.right).rev() {
            let mut byte = BLANK;
            if column - viewport.left >= amount {
                byte = screen[cell(column - amount, line)];
            }
            store(port, screen, column, line, byte);
        }
    }
}

/// Each cell takes the one `amount` columns to its right, or a blank.
fn shift_left(port: &mut Port, screen: &mut [u8], amount: u8) {
    let viewport = port.state.viewport;
    for line in viewport.top..=viewport.bottom {
        for column in viewport.left..=viewport.right {
            let mut byte = BLANK;
            if viewport.right - column >= amount {
                byte = screen[cell(column + amount, line)];
            }
            store(port, screen, column, line, byte);
        }
    }
}
