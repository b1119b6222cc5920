//! Statuses 1 to 10 on a multiplexer: exactly when, the smallest first, and
//! nothing changed.

use super::multiplexers::{check_cells, four, slot, two};
use super::{lines, patterned, rectangle};
use crate::multiplexer::{block_restore, block_return, close, open, take_marks, write};
use crate::multiplexer::{Multiplexer, Slot};
use crate::port::{Cursor, Flags, Port, Rectangle, State};

fn check_open(multiplexer: Multiplexer, screen: &[u8], client: u8, pane: Rectangle, status: u8) {
    let mut after = screen.to_vec();
    let answer = open(multiplexer, &mut after, client, pane);
    assert_eq!(answer, (status, multiplexer, 0), "client {}, {:?}", client, pane);
    check_cells(&after, screen);
}

fn check_write(multiplexer: Multiplexer, screen: &[u8], client: u8, bytes: &[u8], status: u8) {
    let mut after = screen.to_vec();
    let answer = write(multiplexer, &mut after, client, bytes);
    assert_eq!(answer, (status, multiplexer, 0), "client {}", client);
    check_cells(&after, screen);
}

fn check_return(multiplexer: Multiplexer, screen: &[u8], client: u8, size: usize, status: u8) {
    let mut block = vec![0x55; size];
    let answer = block_return(multiplexer, screen, client, &mut block);
    assert_eq!(answer, (status, multiplexer, 0), "client {}, size {}", client, size);
    assert_eq!(block, vec![0x55; size]);
}

fn check_restore(multiplexer: Multiplexer, screen: &[u8], client: u8, block: &[u8], status: u8) {
    let mut after = screen.to_vec();
    let answer = block_restore(multiplexer, &mut after, client, block);
    assert_eq!(answer, (status, multiplexer, 0), "client {}, block {:02X?}", client, block);
    check_cells(&after, screen);
}

/// Multiplexers that are not valid: in the slot of client 7, in another
/// one, in a free one, a client twice, panes that share a cell, and marks
/// outside the lines of client 7, of another one and in a free slot.
fn invalid() -> Vec<Multiplexer> {
    let mut multiplexers = vec![two(); 8];
    multiplexers[0].slots[0].port.state.cursor.column = 13;
    multiplexers[1].slots[2].port.gathered = 1;
    multiplexers[2].slots[3].port.has_saved = true;
    multiplexers[3].slots[3] = slot(7, 0, 0, 1, 1);
    multiplexers[4].slots[1] = slot(9, 12, 7, 13, 8);
    multiplexers[5].slots[0].port.marks = lines(4, 4);
    multiplexers[6].slots[2].port.marks = lines(5, 8);
    multiplexers[7].slots[1].port.marks = lines(0, 0);
    multiplexers
}

/// A block that fits the viewport of client 7.
const FITTING: [u8; 11] = [3, 3, 1, 2, 3, 4, 5, 6, 7, 8, 9];

/// An open client, one that is not, and 0.
const CLIENTS: [u8; 3] = [7, 9, 0];

/// A legal pane apart from all others, one that shares a cell with the
/// pane of client 7, and one that is not legal and shares a cell.
const PANES: [Rectangle; 3] = [
    Rectangle { left: 0, top: 0, right: 1, bottom: 1 },
    Rectangle { left: 8, top: 3, right: 10, bottom: 5 },
    Rectangle { left: 10, top: 5, right: 10, bottom: 5 },
];

#[test]
fn screen_of_another_length_is_1() {
    let mut multiplexers = invalid();
    multiplexers.extend([Multiplexer::fresh(), two(), four()]);
    for size in [0, 1, 1919, 1921, 3840] {
        let screen = vec![0x41; size];
        for multiplexer in &multiplexers {
            for client in CLIENTS {
                for pane in PANES {
                    check_open(*multiplexer, &screen, client, pane, 1);
                }
                check_write(*multiplexer, &screen, client, b"A\x07\x0C", 1);
                check_write(*multiplexer, &screen, client, b"", 1);
                check_return(*multiplexer, &screen, client, 11, 1);
                check_return(*multiplexer, &screen, client, 10, 1);
                check_restore(*multiplexer, &screen, client, &FITTING, 1);
                check_restore(*multiplexer, &screen, client, &[], 1);
            }
        }
    }
}

#[test]
fn invalid_multiplexer_is_2() {
    let screen = patterned();
    for multiplexer in invalid() {
        for client in [7, 9, 0, 200] {
            for pane in PANES {
                check_open(multiplexer, &screen, client, pane, 2);
            }
            assert_eq!(close(multiplexer, client), (2, multiplexer, 0));
            assert_eq!(take_marks(multiplexer, client), (2, multiplexer, 0, 0));
            check_write(multiplexer, &screen, client, b"A\x07\x0C", 2);
            check_write(multiplexer, &screen, client, b"", 2);
            check_return(multiplexer, &screen, client, 11, 2);
            check_return(multiplexer, &screen, client, 0, 2);
            check_restore(multiplexer, &screen, client, &FITTING, 2);
            check_restore(multiplexer, &screen, client, &[], 2);
        }
    }
}

#[test]
fn any_value_in_every_field_comes_back() {
    for (byte, on) in (1..=255).flat_map(|byte| [(byte, false), (byte, true)]).chain([(0, true)]) {
        let home = rectangle(byte, byte, byte, byte);
        let flags = Flags { dle: on, scroll: on, wrap: on, lf: on, advance: on };
        let cursor = Cursor { column: byte, line: byte };
        let state = State { viewport: home, cursor, flags, inverse: on, mousetext: on };
        let port = Port {
            home,
            state,
            has_saved: on,
            saved: state,
            waiting: byte,
            gathered: byte,
            parameters: [byte; 4],
            marks: u32::from_le_bytes([byte; 4]),
        };
        let multiplexer = Multiplexer { slots: [Slot { client: byte, port }; 4] };
        check_open(multiplexer, &patterned(), byte, PANES[0], 2);
        assert_eq!(close(multiplexer, byte), (2, multiplexer, 0));
        assert_eq!(take_marks(multiplexer, byte), (2, multiplexer, 0, 0));
        check_write(multiplexer, &patterned(), byte, b"A\x07\x0C", 2);
        check_return(multiplexer, &patterned(), byte, 1922, 2);
        check_restore(multiplexer, &patterned(), byte, &FITTING, 2);
    }
}

#[test]
fn opening_with_3_to_7() {
    let [apart, sharing, illegal] = PANES;
    // On a multiplexer with free slots, then on a full one.
    for multiplexer in [two(), four()] {
        for pane in PANES {
            check_open(multiplexer, &patterned(), 0, pane, 3);
        }
        check_open(multiplexer, &patterned(), 7, illegal, 4);
        check_open(multiplexer, &patterned(), 9, illegal, 4);
        check_open(multiplexer, &patterned(), 7, sharing, 5);
        check_open(multiplexer, &patterned(), 7, apart, 5);
        check_open(multiplexer, &patterned(), 200, apart, 5);
        check_open(multiplexer, &patterned(), 9, sharing, 6);
    }
    check_open(four(), &patterned(), 9, apart, 7);
    // None of these applies to the same call on the multiplexer with room.
    assert_eq!(open(two(), &mut patterned(), 9, apart).0, 0);
}

#[test]
fn pane_that_is_not_legal_is_4() {
    for pane in [
        // Past the screen, one column, one line, crossed.
        rectangle(0, 0, 80, 1),
        rectangle(0, 0, 1, 24),
        rectangle(79, 0, 80, 1),
        rectangle(0, 23, 1, 24),
        rectangle(0, 0, 255, 255),
        rectangle(254, 254, 255, 255),
        rectangle(4, 0, 4, 1),
        rectangle(4, 0, 5, 0),
        rectangle(5, 0, 4, 1),
        rectangle(4, 1, 5, 0),
        rectangle(0, 0, 0, 0),
    ] {
        check_open(Multiplexer::fresh(), &patterned(), 9, pane, 4);
        check_open(four(), &patterned(), 9, pane, 4);
        check_open(Multiplexer::fresh(), &patterned(), 0, pane, 3);
    }
}

#[test]
fn client_that_is_not_open_is_8() {
    let screen = patterned();
    for multiplexer in [Multiplexer::fresh(), two(), four()] {
        for client in 0..=255 {
            if multiplexer.slots.iter().any(|slot| slot.client == client) && client != 0 {
                continue;
            }
            assert_eq!(close(multiplexer, client), (8, multiplexer, 0));
            assert_eq!(take_marks(multiplexer, client), (8, multiplexer, 0, 0));
            check_write(multiplexer, &screen, client, b"A\x07\x0C", 8);
            check_write(multiplexer, &screen, client, b"", 8);
            // With blocks of any length: 8 comes before 9 and 10.
            check_return(multiplexer, &screen, client, 1922, 8);
            check_return(multiplexer, &screen, client, 0, 8);
            check_restore(multiplexer, &screen, client, &FITTING, 8);
            check_restore(multiplexer, &screen, client, &[], 8);
        }
    }
}

#[test]
fn closed_client_is_8() {
    let (status, multiplexer, _) = close(two(), 7);
    assert_eq!(status, 0);
    assert_eq!(close(multiplexer, 7), (8, multiplexer, 0));
    assert_eq!(take_marks(multiplexer, 7), (8, multiplexer, 0, 0));
    check_write(multiplexer, &patterned(), 7, b"A", 8);
    check_return(multiplexer, &patterned(), 7, 11, 8);
    check_restore(multiplexer, &patterned(), 7, &FITTING, 8);
    // The other one is still there.
    assert_eq!(write(multiplexer, &mut patterned(), 200, b"A\x07").0, 0);
}

#[test]
fn short_block_is_9() {
    for size in 0..11 {
        check_return(two(), &patterned(), 7, size, 9);
    }
    // 8 columns by 3 lines: 26 bytes.
    check_return(two(), &patterned(), 200, 25, 9);
    assert_eq!(block_return(two(), &patterned(), 7, &mut [0; 11]), (0, two(), 11));
    assert_eq!(block_return(two(), &patterned(), 200, &mut [0; 26]), (0, two(), 26));
}

#[test]
fn block_that_does_not_fit_is_10() {
    let screen = patterned();
    for size in 0..11 {
        check_restore(two(), &screen, 7, &FITTING[..size], 10);
    }
    check_restore(two(), &screen, 7, &[3, 3, 1, 2, 3, 4, 5, 6, 7, 8, 9, 10], 10);
    for (width, height) in [(2, 3), (3, 2), (9, 1), (1, 9), (0, 0), (80, 24)] {
        let mut block = FITTING;
        block[0] = width;
        block[1] = height;
        check_restore(two(), &screen, 7, &block, 10);
    }
    // A block of client 7 does not fit client 200.
    check_restore(two(), &screen, 200, &FITTING, 10);
    let mut end = two();
    end.slots[0].port.marks = lines(5, 7);
    assert_eq!(block_restore(two(), &mut patterned(), 7, &FITTING), (0, end, 0));
}

#[test]
fn empty_write_is_done_and_changes_nothing() {
    let mut waits = two();
    waits.slots[2].port.waiting = 0x1E;
    check_write(two(), &patterned(), 7, b"", 0);
    check_write(waits, &patterned(), 200, b"", 0);
}
