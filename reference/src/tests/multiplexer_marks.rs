//! Marks on a multiplexer: of which port, when opened and closed, and taken
//! by client.

use super::multiplexers::{check_cells, four, free, slot, two};
use super::{lines, patterned, rectangle};
use crate::multiplexer::Multiplexer;
use crate::multiplexer::{block_restore, block_return, close, open, take_marks, write};
use crate::port::Cursor;

/// `four` with marks in every slot, each on a part of its lines. Clients 7
/// and 200 share all their lines, 255 and 1 share two.
fn marked() -> Multiplexer {
    let mut multiplexer = four();
    multiplexer.slots[0].port.marks = lines(5, 5);
    multiplexer.slots[1].port.marks = lines(9, 22);
    multiplexer.slots[2].port.marks = lines(6, 7);
    multiplexer.slots[3].port.marks = lines(23, 23);
    multiplexer
}

#[test]
fn opening_marks_the_lines_of_the_pane() {
    // The other slots keep their marks, on the same lines as well.
    let (_, start, _) = close(marked(), 200);
    for pane in [rectangle(0, 0, 79, 4), rectangle(13, 5, 14, 6), rectangle(20, 7, 21, 23)] {
        let marks = lines(pane.top, pane.bottom);
        let mut taken = start;
        taken.slots[2] = slot(9, pane.left, pane.top, pane.right, pane.bottom);
        let mut end = taken;
        end.slots[2].port.marks = marks;
        assert_eq!(open(start, &mut patterned(), 9, pane), (0, end, 0));
        let count = (pane.bottom - pane.top + 1) as usize;
        assert_eq!(take_marks(end, 9), (0, taken, marks, count));
    }
    // On a screen that is blank already.
    let pane = rectangle(0, 0, 79, 23);
    let (_, multiplexer, _) = open(Multiplexer::fresh(), &mut [0xA0; 1920], 9, pane);
    assert_eq!(multiplexer.slots[0].port.marks, 0xFFFFFF);
}

#[test]
fn refused_opening_marks_nothing() {
    let (_, room, _) = close(marked(), 200);
    for (start, client, pane, status) in [
        (room, 0, rectangle(0, 0, 1, 1), 3),
        (room, 9, rectangle(0, 0, 0, 1), 4),
        (room, 7, rectangle(0, 0, 1, 1), 5),
        (room, 9, rectangle(8, 3, 10, 5), 6),
        (marked(), 9, rectangle(0, 0, 1, 1), 7),
    ] {
        assert_eq!(open(start, &mut patterned(), client, pane), (status, start, 0));
    }
    assert_eq!(open(room, &mut [0; 1919], 9, rectangle(0, 0, 1, 1)), (1, room, 0));
}

#[test]
fn closing_leaves_no_mark() {
    let mut end = marked();
    end.slots[0] = free();
    assert_eq!(close(marked(), 7), (0, end, 0));
    // The slot used again has the new pane's marks only.
    let (_, multiplexer, _) = open(end, &mut patterned(), 7, rectangle(30, 0, 31, 1));
    let marks = multiplexer.slots.map(|slot| slot.port.marks);
    assert_eq!(marks, [lines(0, 1), lines(9, 22), lines(6, 7), lines(23, 23)]);
}

/// A stream for each client of `marked`, and the marks it adds there.
const STREAMS: [(u8, &[u8], usize, u32); 4] = [
    (7, &[0x17], 0, 0b111 << 5),
    (255, &[0x41], 1, 1 << 8),
    (200, &[0x0D, 0x1A], 2, 1 << 6),
    (1, &[0x05, 0x01], 3, 0b11 << 22),
];

#[test]
fn write_marks_in_its_own_slot_only() {
    for (client, bytes, place, added) in STREAMS {
        for start in [four(), marked()] {
            let (status, after, _) = write(start, &mut patterned(), client, bytes);
            assert_eq!(status, 0);
            for other in 0..4 {
                let before = start.slots[other].port.marks;
                let wanted = if other == place { before | added } else { before };
                assert_eq!(after.slots[other].port.marks, wanted, "{} {}", client, other);
            }
            // A client that is not open, or a screen too short: none.
            assert_eq!(write(start, &mut patterned(), 9, bytes), (8, start, 0));
            assert_eq!(write(start, &mut [0; 1919], client, bytes), (1, start, 0));
        }
    }
}

#[test]
fn blocks_mark_in_their_own_slot_only() {
    let mut block = [0; 26];
    assert_eq!(block_return(marked(), &patterned(), 200, &mut block), (0, marked(), 26));
    let mut end = marked();
    end.slots[2].port.marks = lines(5, 7);
    let mut screen = patterned();
    assert_eq!(block_restore(marked(), &mut screen, 200, &block), (0, end, 0));
    check_cells(&screen, &patterned());
    // Only the viewport's lines, which may be fewer than the pane's.
    let mut start = marked();
    start.slots[1].port.state.viewport = rectangle(10, 22, 11, 23);
    start.slots[1].port.state.cursor = Cursor { column: 10, line: 22 };
    start.slots[1].port.marks = 0;
    let mut end = start;
    end.slots[1].port.marks = lines(22, 23);
    assert_eq!(block_restore(start, &mut screen, 255, b"\x02\x02abcd"), (0, end, 0));
    // Refused: none.
    assert_eq!(block_restore(start, &mut screen, 255, b"\x02\x03abcd"), (10, start, 0));
    assert_eq!(block_restore(start, &mut screen, 9, b"\x02\x02abcd"), (8, start, 0));
}

#[test]
fn taking_clears_one_slot_only() {
    for (place, client, marks, count) in [
        (0, 7, lines(5, 5), 1),
        (1, 255, lines(9, 22), 14),
        (2, 200, lines(6, 7), 2),
        (3, 1, lines(23, 23), 1),
    ] {
        let mut end = marked();
        end.slots[place].port.marks = 0;
        assert_eq!(take_marks(marked(), client), (0, end, marks, count));
        assert_eq!(take_marks(end, client), (0, end, 0, 0));
    }
}

#[test]
fn taking_changes_no_other_field() {
    let mut start = marked();
    let port = &mut start.slots[3].port;
    port.state.inverse = true;
    port.has_saved = true;
    port.saved = port.state;
    port.waiting = 0x1E;
    port.gathered = 1;
    port.parameters[0] = 0x07;
    let mut end = start;
    end.slots[3].port.marks = 0;
    assert_eq!(take_marks(start, 1), (0, end, lines(23, 23), 1));
}

#[test]
fn taking_for_a_client_that_is_not_open_is_8() {
    for start in [Multiplexer::fresh(), two(), marked()] {
        for client in [0, 2, 9, 254] {
            assert_eq!(take_marks(start, client), (8, start, 0, 0));
        }
    }
}

#[test]
fn taking_from_an_invalid_multiplexer_is_2() {
    // In the client's own slot, in another one, in a free one.
    let mut own = marked();
    own.slots[0].port.marks |= lines(8, 8);
    let mut other = marked();
    other.slots[3].port.marks |= 1 << 24;
    let (_, mut unused, _) = close(marked(), 200);
    unused.slots[2].port.marks = lines(6, 7);
    for start in [own, other, unused] {
        // 2 comes before 8.
        for client in [7, 9, 0] {
            assert_eq!(take_marks(start, client), (2, start, 0, 0));
        }
    }
}

/// A client, a stream for it or none for a taking, and the answer's status
/// and marks. Client 7: write, taking, write. Client 200: scroll, taking,
/// scroll. Client 9 is not open.
const CALLS: [(u8, Option<&[u8]>, u8, u32); 7] = [
    (7, Some(&[0x41]), 0, 0),
    (7, None, 0, 1 << 5),
    (7, Some(&[0x41]), 0, 0),
    (200, Some(&[0x17]), 0, 0),
    (200, None, 0, 0b111 << 5),
    (200, Some(&[0x17]), 0, 0),
    (9, None, 8, 0),
];

#[test]
fn order_between_clients_does_not_matter() {
    let mut end = marked();
    end.slots[0].port.state.cursor.column = 12;
    end.slots[0].port.marks = lines(5, 5);
    end.slots[2].port.marks = lines(5, 7);
    for order in [[0, 1, 2, 3, 4, 5, 6], [6, 3, 4, 5, 0, 1, 2], [0, 3, 4, 1, 6, 5, 2]] {
        let mut multiplexer = marked();
        let mut screen = patterned();
        for call in order {
            let (client, stream, status, marks) = CALLS[call];
            if let Some(bytes) = stream {
                let (got, after, bells) = write(multiplexer, &mut screen, client, bytes);
                assert_eq!((got, bells), (status, 0), "call {} of {:?}", call, order);
                multiplexer = after;
            } else {
                let (got, after, taken, count) = take_marks(multiplexer, client);
                let wanted = (status, marks, marks.count_ones() as usize);
                assert_eq!((got, taken, count), wanted, "call {} of {:?}", call, order);
                multiplexer = after;
            }
        }
        assert_eq!(multiplexer, end, "{:?}", order);
    }
}
