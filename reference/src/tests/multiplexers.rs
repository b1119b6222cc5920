//! Fresh multiplexers, opening and closing. The other tests of multiplexers
//! start from the slots and screens made here.

use super::{lines, patterned, rectangle};
use crate::multiplexer::{close, open, write, Multiplexer, Slot};
use crate::port::{Cursor, Flags, Port, Rectangle, State};

/// A free slot, every field spelled out.
pub fn free() -> Slot {
    let nothing = State {
        viewport: rectangle(0, 0, 0, 0),
        cursor: Cursor { column: 0, line: 0 },
        flags: Flags { dle: false, scroll: false, wrap: false, lf: false, advance: false },
        inverse: false,
        mousetext: false,
    };
    let port = Port {
        home: rectangle(0, 0, 0, 0),
        state: nothing,
        has_saved: false,
        saved: nothing,
        waiting: 0,
        gathered: 0,
        parameters: [0, 0, 0, 0],
        marks: 0,
    };
    Slot { client: 0, port }
}

/// A slot just opened, its marks already taken: pane, viewport, cursor and
/// flags spelled out, all else as in a free one.
pub fn slot(client: u8, left: u8, top: u8, right: u8, bottom: u8) -> Slot {
    let mut slot = free();
    slot.client = client;
    slot.port.home = rectangle(left, top, right, bottom);
    slot.port.state.viewport = rectangle(left, top, right, bottom);
    slot.port.state.cursor = Cursor { column: left, line: top };
    slot.port.state.flags = Flags { dle: true, scroll: true, wrap: true, lf: true, advance: true };
    slot
}

/// Clients 7 and 200 side by side without a gap; slots 1 and 3 are free.
pub fn two() -> Multiplexer {
    Multiplexer { slots: [slot(7, 10, 5, 12, 7), free(), slot(200, 13, 5, 20, 7), free()] }
}

/// The same with client 255 right below and client 1 in the last corner.
pub fn four() -> Multiplexer {
    let mut multiplexer = two();
    multiplexer.slots[1] = slot(255, 10, 8, 12, 23);
    multiplexer.slots[3] = slot(1, 78, 22, 79, 23);
    multiplexer
}

/// The screen with blanks in one rectangle.
pub fn blanked(mut screen: Vec<u8>, pane: Rectangle) -> Vec<u8> {
    for line in pane.top as usize..=pane.bottom as usize {
        for column in pane.left as usize..=pane.right as usize {
            screen[line * 80 + column] = 0xA0;
        }
    }
    screen
}

pub fn check_cells(got: &[u8], wanted: &[u8]) {
    assert_eq!(got.len(), wanted.len());
    for place in 0..wanted.len() {
        let (column, line) = (place % 80, place / 80);
        assert_eq!(got[place], wanted[place], "cell ({},{})", column, line);
    }
}

/// An opening that is done: the slot at `place` is the new one, the pane
/// is blank and its lines are marked, and nothing else has changed.
fn check_open(start: Multiplexer, client: u8, pane: Rectangle, place: usize) -> Multiplexer {
    let mut end = start;
    end.slots[place] = slot(client, pane.left, pane.top, pane.right, pane.bottom);
    end.slots[place].port.marks = lines(pane.top, pane.bottom);
    let mut screen = patterned();
    assert_eq!(open(start, &mut screen, client, pane), (0, end, 0));
    check_cells(&screen, &blanked(patterned(), pane));
    assert!(end.valid());
    end
}

fn check_open_refused(start: Multiplexer, client: u8, pane: Rectangle, status: u8) {
    let mut screen = patterned();
    assert_eq!(open(start, &mut screen, client, pane), (status, start, 0), "{:?}", pane);
    check_cells(&screen, &patterned());
}

#[test]
fn fresh_multiplexer_has_four_free_slots() {
    assert_eq!(Multiplexer::fresh(), Multiplexer { slots: [free(), free(), free(), free()] });
}

#[test]
fn opening_fills_slots_from_the_lowest() {
    let multiplexer = check_open(Multiplexer::fresh(), 7, rectangle(10, 5, 12, 7), 0);
    let multiplexer = check_open(multiplexer, 255, rectangle(0, 0, 79, 4), 1);
    let multiplexer = check_open(multiplexer, 1, rectangle(0, 8, 79, 23), 2);
    let multiplexer = check_open(multiplexer, 8, rectangle(13, 5, 79, 7), 3);
    check_open_refused(multiplexer, 9, rectangle(0, 5, 9, 7), 7);
}

#[test]
fn fifth_opening() {
    check_open_refused(four(), 2, rectangle(0, 0, 9, 4), 7);
    // Once a slot is closed, the same opening is done.
    let (_, multiplexer, _) = close(four(), 200);
    check_open(multiplexer, 2, rectangle(0, 0, 9, 4), 2);
}

#[test]
fn opening_in_a_slot_just_closed() {
    // The same client in the same pane, then either with another.
    let (status, multiplexer, _) = close(four(), 255);
    assert_eq!(status, 0);
    check_open(multiplexer, 255, rectangle(10, 8, 12, 23), 1);
    check_open(multiplexer, 255, rectangle(0, 0, 9, 4), 1);
    check_open(multiplexer, 9, rectangle(10, 8, 12, 23), 1);
    // Slots 3 and 0 closed in this order: 0 is taken first, then 3.
    let (_, multiplexer, _) = close(four(), 1);
    let (_, multiplexer, _) = close(multiplexer, 7);
    let multiplexer = check_open(multiplexer, 40, rectangle(0, 0, 9, 4), 0);
    check_open(multiplexer, 41, rectangle(30, 0, 39, 4), 3);
}

#[test]
fn free_slots_take_no_cell() {
    // The fields of a free slot hold 0, but it has no pane at (0,0).
    check_open(Multiplexer::fresh(), 9, rectangle(0, 0, 1, 1), 0);
    check_open(two(), 9, rectangle(0, 0, 79, 4), 1);
}

#[test]
fn panes_that_touch() {
    // One open pane (10,5,12,7): left, right, above, below, four corners.
    let start = Multiplexer { slots: [free(), slot(7, 10, 5, 12, 7), free(), free()] };
    for pane in [
        rectangle(0, 5, 9, 7),
        rectangle(13, 5, 79, 7),
        rectangle(10, 0, 12, 4),
        rectangle(10, 8, 12, 23),
        rectangle(8, 3, 9, 4),
        rectangle(13, 3, 14, 4),
        rectangle(8, 8, 9, 9),
        rectangle(13, 8, 14, 9),
    ] {
        check_open(start, 9, pane, 0);
    }
}

#[test]
fn panes_that_share_cells() {
    let start = Multiplexer { slots: [free(), slot(7, 10, 5, 12, 7), free(), free()] };
    for pane in [
        // Exactly one cell: each corner.
        rectangle(8, 3, 10, 5),
        rectangle(12, 3, 14, 5),
        rectangle(8, 7, 10, 9),
        rectangle(12, 7, 14, 9),
        // One column or line of each side.
        rectangle(0, 5, 10, 7),
        rectangle(12, 5, 79, 7),
        rectangle(10, 0, 12, 5),
        rectangle(10, 7, 12, 23),
        // The same, inside, around, and crossed like a plus sign.
        rectangle(10, 5, 12, 7),
        rectangle(11, 6, 12, 7),
        rectangle(0, 0, 79, 23),
        rectangle(0, 6, 79, 7),
        rectangle(11, 0, 12, 23),
    ] {
        check_open_refused(start, 9, pane, 6);
    }
}

#[test]
fn pane_counts_and_not_the_viewport() {
    // Client 7 keeps to (10,5,11,6) for now; its pane is still (10,5,12,7).
    let mut start = two();
    start.slots[0].port.state.viewport = rectangle(10, 5, 11, 6);
    check_open_refused(start, 9, rectangle(0, 7, 10, 9), 6);
    check_open(start, 9, rectangle(0, 8, 10, 9), 1);
}

#[test]
fn pane_of_two_by_two() {
    let pane = rectangle(78, 22, 79, 23);
    let multiplexer = check_open(Multiplexer::fresh(), 9, pane, 0);
    let mut screen = blanked(patterned(), pane);
    let (status, after, bells) = write(multiplexer, &mut screen, 9, b"ABCDE");
    // D fills and scrolls the pane; E lands on its bottom line.
    let mut end = multiplexer;
    end.slots[0].port.state.cursor = Cursor { column: 79, line: 23 };
    assert_eq!((status, after, bells), (0, end, 0));
    let mut wanted = patterned();
    wanted[22 * 80 + 78] = 0x83;
    wanted[22 * 80 + 79] = 0x84;
    wanted[23 * 80 + 78] = 0x85;
    wanted[23 * 80 + 79] = 0xA0;
    check_cells(&screen, &wanted);
}

#[test]
fn whole_screen_as_a_pane() {
    let multiplexer = check_open(Multiplexer::fresh(), 9, rectangle(0, 0, 79, 23), 0);
    check_open_refused(multiplexer, 10, rectangle(40, 10, 41, 11), 6);
}

#[test]
fn closing_sets_every_field_to_zero() {
    for (place, client) in [(0, 7), (1, 255), (2, 200), (3, 1)] {
        let mut start = four();
        // Only the last parameter is at 0, as it must be.
        let port = &mut start.slots[place].port;
        port.state.inverse = true;
        port.state.mousetext = true;
        port.has_saved = true;
        port.saved = port.state;
        port.waiting = 0x02;
        port.gathered = 3;
        port.parameters = [1, 2, 3, 0];
        port.marks = lines(port.home.top, port.home.bottom);
        assert!(start.valid());
        let mut end = start;
        end.slots[place] = free();
        assert_eq!(close(start, client), (0, end, 0));
        assert!(end.valid());
    }
}
