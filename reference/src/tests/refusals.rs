//! Statuses 1, 2, 9 and 10: exactly when, in which order, nothing changed.

use super::{lines, patterned, small};
use crate::block::{block_restore, block_return};
use crate::console::{write, write_byte};
use crate::port::Port;

/// The small port with its cursor outside the viewport.
fn invalid() -> Port {
    let mut port = small().port;
    port.state.cursor.column = 13;
    port
}

/// The small port with a mark on no screen line.
fn marked_outside() -> Port {
    Port { marks: 1 << 24, ..small().port }
}

/// A port whose viewport is crossed, so it has no width or height.
fn crossed() -> Port {
    let mut port = small().port;
    port.state.viewport.left = 200;
    port.state.viewport.top = 255;
    port
}

fn check_write(port: Port, screen: &[u8], bytes: &[u8], status: u8) {
    let mut after = screen.to_vec();
    assert_eq!(write(port, &mut after, bytes), (status, port, 0));
    assert_eq!(after, screen);
}

fn check_write_byte(port: Port, screen: &[u8], byte: u8, status: u8) {
    let mut lent = port;
    let mut after = screen.to_vec();
    assert_eq!(write_byte(&mut lent, &mut after, byte), (status, 0));
    assert_eq!(lent, port);
    assert_eq!(after, screen);
}

fn check_return(port: Port, screen: &[u8], size: usize, status: u8) {
    let mut block = vec![0x55; size];
    assert_eq!(block_return(port, screen, &mut block), (status, port, 0));
    assert_eq!(block, vec![0x55; size]);
}

fn check_restore(port: Port, screen: &[u8], block: &[u8], status: u8) {
    let mut after = screen.to_vec();
    assert_eq!(block_restore(port, &mut after, block), (status, port, 0));
    assert_eq!(after, screen);
}

/// A block that fits the small viewport.
fn fitting() -> Vec<u8> {
    vec![3, 3, 1, 2, 3, 4, 5, 6, 7, 8, 9]
}

#[test]
fn screen_of_another_length_is_1() {
    for size in [0, 1, 1919, 1921, 3840] {
        let screen = vec![0x41; size];
        // The port is valid, then not; 1 comes before 2.
        for port in [small().port, invalid(), crossed(), marked_outside()] {
            check_write(port, &screen, b"A\x07\x0C", 1);
            check_write(port, &screen, b"", 1);
            check_write_byte(port, &screen, 0x07, 1);
            // The block fits, then not; 1 comes before 9 and 10.
            check_return(port, &screen, 11, 1);
            check_return(port, &screen, 10, 1);
            check_restore(port, &screen, &fitting(), 1);
            check_restore(port, &screen, &[], 1);
        }
    }
}

#[test]
fn invalid_port_is_2() {
    for port in [invalid(), crossed(), marked_outside()] {
        check_write(port, &patterned(), b"A\x07\x0C", 2);
        check_write(port, &patterned(), b"", 2);
        check_write_byte(port, &patterned(), 0x07, 2);
        // The block fits, then not; 2 comes before 9 and 10.
        check_return(port, &patterned(), 11, 2);
        check_return(port, &patterned(), 0, 2);
        check_restore(port, &patterned(), &fitting(), 2);
        check_restore(port, &patterned(), &[], 2);
    }
}

#[test]
fn short_block_is_9() {
    for size in 0..11 {
        check_return(small().port, &small().screen, size, 9);
    }
    check_return(Port::fresh(), &patterned(), 1921, 9);
    let mut exact = vec![0; 11];
    let (status, _, count) = block_return(small().port, &small().screen, &mut exact);
    assert_eq!((status, count), (0, 11));
}

#[test]
fn block_that_does_not_fit_is_10() {
    let port = small().port;
    let screen = small().screen;
    for size in (0..11).chain([12, 13, 1922]) {
        let mut block = vec![0x55; size];
        for place in 0..size.min(2) {
            block[place] = 3;
        }
        check_restore(port, &screen, &block, 10);
    }
    for (width, height) in [(2, 3), (3, 2), (4, 3), (3, 4), (9, 1), (0, 0), (255, 255)] {
        let mut block = fitting();
        block[0] = width;
        block[1] = height;
        check_restore(port, &screen, &block, 10);
    }
    let (status, _, count) = block_restore(port, &mut screen.clone(), &fitting());
    assert_eq!((status, count), (0, 0));
}

#[test]
fn width_and_height_swapped_is_10() {
    // A viewport of 3 by 2 and a block of the same length for 2 by 3.
    let mut port = small().port;
    port.state.viewport.bottom = 6;
    check_restore(port, &small().screen, &[2, 3, 1, 2, 3, 4, 5, 6], 10);
    let mut screen = small().screen;
    let answer = block_restore(port, &mut screen, &[3, 2, 1, 2, 3, 4, 5, 6]);
    assert_eq!(answer, (0, Port { marks: lines(5, 6), ..port }, 0));
}

#[test]
fn empty_write_is_done_and_changes_nothing() {
    let waits = Port { waiting: 0x1E, gathered: 1, parameters: [7, 0, 0, 0], ..small().port };
    check_write(small().port, &small().screen, b"", 0);
    check_write(waits, &small().screen, b"", 0);
}
