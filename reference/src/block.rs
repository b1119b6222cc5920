//! A viewport's text as a block, handed out and put back, and one row of it.
//! The program needs the block calls for its scripts; hosts also the row.
#![cfg_attr(not(test), allow(dead_code))]

use crate::marks::store;
use crate::port::{cell, Port, SCREEN_SIZE};

fn width(port: &Port) -> u8 {
    port.state.viewport.right - port.state.viewport.left + 1
}

fn height(port: &Port) -> u8 {
    port.state.viewport.bottom - port.state.viewport.top + 1
}

/// A width byte, a height byte and the cells.
fn block_size(port: &Port) -> usize {
    2 + width(port) as usize * height(port) as usize
}

/// Fills the front of the lent block from the viewport; bytes of the
/// block beyond that stay. Gives the status, the port and the count.
pub fn block_return(port: Port, screen: &[u8], block: &mut [u8]) -> (u8, Port, usize) {
    if screen.len() != SCREEN_SIZE {
        return (1, port, 0);
    }
    if !port.valid() {
        return (2, port, 0);
    }
    if block.len() < block_size(&port) {
        return (9, port, 0);
    }
    block[0] = width(&port);
    block[1] = height(&port);
    let viewport = port.state.viewport;
    let mut place = 2;
    for line in viewport.top..=viewport.bottom {
        for column in viewport.left..=viewport.right {
            block[place] = screen[cell(column, line)];
            place += 1;
        }
    }
    (0, port, block_size(&port))
}

/// Writes a block's cells into the viewport, which marks its lines; the
/// cursor does not move. Gives the status, the port and a count of 0.
pub fn block_restore(port: Port, screen: &mut [u8], block: &[u8]) -> (u8, Port, usize) {
    if screen.len() != SCREEN_SIZE {
        return (1, port, 0);
    }
    if !port.valid() {
        return (2, port, 0);
    }
    if block.len() != block_size(&port) || block[0] != width(&port) || block[1] != height(&port) {
        return (10, port, 0);
    }
    let mut port = port;
    let viewport = port.state.viewport;
    let mut place = 2;
    for line in viewport.top..=viewport.bottom {
        for column in viewport.left..=viewport.right {
            store(&mut port, screen, column, line, block[place]);
            place += 1;
        }
    }
    (0, port, 0)
}

/// One row of the viewport, counted from 0 at the top, as a part of the
/// lent screen; an empty part where there is no such row to give.
pub fn row_view<'a>(port: &Port, screen: &'a [u8], row: usize) -> &'a [u8] {
    if screen.len() != SCREEN_SIZE || !port.valid() || row >= height(port) as usize {
        return &screen[0..0];
    }
    let start = cell(port.state.viewport.left, port.state.viewport.top + row as u8);
    &screen[start..start + width(port) as usize]
}
