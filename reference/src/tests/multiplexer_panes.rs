//! Calls on one slot leave the other slots, and the cells of no pane or
//! of another one, as they are.

use super::multiplexers::{blanked, check_cells, four, free, slot};
use super::{lines, patterned, rectangle, small};
use crate::multiplexer::{block_restore, block_return, write, Multiplexer};
use crate::port::{Cursor, State};

/// Client 7 has abc, def, ghi in its pane and the cursor on the e. The
/// panes of 200 and 255 begin right behind its right and bottom edge.
fn start() -> Multiplexer {
    let mut multiplexer = four();
    multiplexer.slots[0].port.state.cursor = Cursor { column: 11, line: 6 };
    multiplexer
}

/// A write for client 7 that changes only its port, by these marks and the
/// given change, and its pane, to the given lines; a dot stands for a blank.
fn check(bytes: &[u8], rows: [&[u8; 3]; 3], marks: u32, bells: usize, change: impl Fn(&mut State)) {
    let mut end = start();
    end.slots[0].port.marks = marks;
    change(&mut end.slots[0].port.state);
    let screen = small().but(|c| {
        c.rows(rows);
    });
    check_end(bytes, &end, &screen.screen, bells);
}

fn check_end(bytes: &[u8], end: &Multiplexer, cells: &[u8], bells: usize) {
    let mut screen = small().screen;
    let answer = write(start(), &mut screen, 7, bytes);
    assert_eq!(answer, (0, *end, bells), "{:02X?}", bytes);
    check_cells(&screen, cells);
}

fn at(column: u8, line: u8) -> impl Fn(&mut State) {
    move |state| state.cursor = Cursor { column, line }
}

#[test]
fn write_changes_one_port_and_its_pane() {
    check(b"A", [b"abc", b"d\x81f", b"ghi"], lines(6, 6), 0, at(12, 6));
    check(b"ABCDE", [b"d\x81\x82", b"\x83\x84\x85", b"..."], lines(5, 7), 0, at(10, 7));
    check(b"\x07A\x07\x0F", [b"abc", b"d\x81f", b"ghi"], lines(6, 6), 2, |state| {
        state.cursor.column = 12;
        state.inverse = true;
    });
    let none = free().port.state.flags;
    check(b"\x15\xE0", [b"abc", b"def", b"ghi"], 0, 0, |state| state.flags = none);
    // The edges are the pane's.
    check(b"\x1E\x7F\x7F", [b"abc", b"def", b"ghi"], 0, 0, at(12, 7));
    check(b"\x19\x08", [b"...", b"abc", b"def"], lines(5, 7), 0, at(12, 5));
    check(b"\x0A\x0A", [b"def", b"ghi", b"..."], lines(5, 7), 0, at(11, 7));
}

#[test]
fn high_codes_go_by_the_mode_of_their_own_slot() {
    // 7 in inverse mode, 200 in normal mode, then the other way round.
    let mut multiplexer = start();
    let mut screen = small().screen;
    for (client, bytes) in [
        (7, b"\x0F"),
        (200, b"\xC1"),
        (7, b"\xC1"),
        (200, b"\x0F"),
        (7, b"\x0E"),
        (200, b"\xC1"),
        (7, b"\xC1"),
    ] {
        let (status, after, bells) = write(multiplexer, &mut screen, client, bytes);
        assert_eq!((status, bells), (0, 0));
        multiplexer = after;
    }
    let mut end = start();
    end.slots[0].port.state.cursor = Cursor { column: 10, line: 7 };
    end.slots[0].port.marks = lines(6, 6);
    end.slots[2].port.state.cursor = Cursor { column: 15, line: 5 };
    end.slots[2].port.state.inverse = true;
    end.slots[2].port.marks = lines(5, 5);
    assert_eq!(multiplexer, end);
    let cells = small().but(|c| {
        c.rows([b"abc", b"d\xC1\x41", b"ghi"]).store(13, 5, 0x41).store(14, 5, 0xC1);
    });
    check_cells(&screen, &cells.screen);
}

#[test]
fn erasing_and_moving_stay_in_the_pane() {
    check(&[0x03], [b"abc", b"..f", b"ghi"], lines(6, 6), 0, |_| {});
    check(&[0x1D], [b"abc", b"d..", b"ghi"], lines(6, 6), 0, |_| {});
    check(&[0x1A], [b"abc", b"...", b"ghi"], lines(6, 6), 0, |_| {});
    check(&[0x13], [b"...", b"..f", b"ghi"], lines(5, 6), 0, |_| {});
    check(&[0x0B], [b"abc", b"d..", b"..."], lines(6, 7), 0, |_| {});
    check(&[0x0C], [b"...", b"...", b"..."], lines(5, 7), 0, at(10, 5));
    check(&[0x16], [b"...", b"abc", b"def"], lines(5, 7), 0, |_| {});
    check(&[0x17], [b"def", b"ghi", b"..."], lines(5, 7), 0, |_| {});
    check(&[0x05, 0x01], [b".ab", b".de", b".gh"], lines(5, 7), 0, |_| {});
    check(&[0x05, 0xFE], [b"c..", b"f..", b"i.."], lines(5, 7), 0, |_| {});
    // 223 spaces.
    check(&[0x10, 0xFF], [b"...", b"...", b"..."], lines(5, 7), 0, at(12, 7));
}

#[test]
fn slip_viewport_clamped_to_the_pane() {
    // $02 for all columns and lines, by 79 and 23 and by 95 and 95.
    let rows = [b"...", b"...", b"..."];
    check(&[0x02, 0x20, 0x20, 0x6F, 0x37, 0x0C], rows, lines(5, 7), 0, at(10, 5));
    check(&[0x02, 0x20, 0x20, 0x7F, 0x7F, 0x0C], rows, lines(5, 7), 0, at(10, 5));
    // (13,5,20,7) has no column in the pane, (11,6,79,23) is cut to it.
    check(&[0x02, 0x2D, 0x25, 0x34, 0x27, 0x0C], rows, lines(5, 7), 0, at(10, 5));
    let rows = [b"abc", b"d..", b"g.."];
    check(&[0x02, 0x2B, 0x26, 0x6F, 0x37, 0x0C], rows, lines(6, 7), 0, |state| {
        state.viewport = rectangle(11, 6, 12, 7);
    });
}

#[test]
fn slip_save_gives_the_pane() {
    // $01, then the viewport is erased: only the pane is.
    let mut end = start();
    end.slots[0].port.has_saved = true;
    end.slots[0].port.saved = start().slots[0].port.state;
    end.slots[0].port.state.cursor = Cursor { column: 10, line: 5 };
    end.slots[0].port.marks = lines(5, 7);
    let cells = blanked(patterned(), rectangle(10, 5, 12, 7));
    check_end(&[0x01, 0x0C], &end, &cells, 0);
    // $04 with nothing saved.
    check(&[0x04, 0x0C], [b"...", b"...", b"..."], lines(5, 7), 0, at(10, 5));
}

#[test]
fn no_code_leaves_the_pane() {
    let outside = blanked(small().screen, rectangle(10, 5, 12, 7));
    for code in 0..=255 {
        for parameter in [0x00, 0x07, 0x1F, 0x20, 0x2C, 0x41, 0x6F, 0x7F, 0x80, 0xFF] {
            let bytes = [code, parameter, parameter, parameter, parameter, code, 0x0C, 0x41];
            let mut screen = small().screen;
            let (status, multiplexer, _) = write(start(), &mut screen, 7, &bytes);
            assert_eq!(status, 0);
            assert!(multiplexer.valid());
            assert_eq!(multiplexer.slots[0].client, 7);
            assert_eq!(multiplexer.slots[0].port.home, rectangle(10, 5, 12, 7));
            assert_eq!(multiplexer.slots[1..], start().slots[1..]);
            check_cells(&blanked(screen, rectangle(10, 5, 12, 7)), &outside);
        }
    }
}

#[test]
fn commands_wait_for_their_own_slot() {
    // $05 to 7, a bell to 200, then the 1 to 7 is its parameter.
    let mut screen = small().screen;
    let (status, multiplexer, bells) = write(start(), &mut screen, 7, &[0x05]);
    let mut waits = start();
    waits.slots[0].port.waiting = 0x05;
    assert_eq!((status, multiplexer, bells), (0, waits, 0));
    assert_eq!(write(multiplexer, &mut screen, 200, &[0x07]), (0, waits, 1));
    check_cells(&screen, &small().screen);
    let mut shifted = start();
    shifted.slots[0].port.marks = lines(5, 7);
    assert_eq!(write(multiplexer, &mut screen, 7, &[0x01]), (0, shifted, 0));
    let end = small().but(|c| {
        c.rows([b".ab", b".de", b".gh"]);
    });
    check_cells(&screen, &end.screen);
}

#[test]
fn block_return_changes_no_slot_and_no_cell() {
    let mut block = [0x55; 13];
    let answer = block_return(start(), &small().screen, 7, &mut block);
    assert_eq!(answer, (0, start(), 11));
    assert_eq!(&block, b"\x03\x03abcdefghi\x55\x55");
    // The viewport counts, which may be smaller than the pane.
    let mut multiplexer = start();
    multiplexer.slots[0].port.state.viewport = rectangle(11, 6, 12, 7);
    let mut block = [0x55; 7];
    assert_eq!(block_return(multiplexer, &small().screen, 7, &mut block), (0, multiplexer, 6));
    assert_eq!(&block, b"\x02\x02efhi\x55");
}

#[test]
fn block_restore_changes_the_viewport_only() {
    let mut screen = small().screen;
    let answer = block_restore(start(), &mut screen, 7, b"\x03\x03jklmnopqr");
    let mut restored = start();
    restored.slots[0].port.marks = lines(5, 7);
    assert_eq!(answer, (0, restored, 0));
    let end = small().but(|c| {
        c.rows([b"jkl", b"mno", b"pqr"]);
    });
    check_cells(&screen, &end.screen);
    let mut multiplexer = start();
    multiplexer.slots[0].port.state.viewport = rectangle(11, 6, 12, 7);
    let answer = block_restore(multiplexer, &mut screen, 7, b"\x02\x02stuv");
    multiplexer.slots[0].port.marks = lines(6, 7);
    assert_eq!(answer, (0, multiplexer, 0));
    let end = small().but(|c| {
        c.rows([b"jkl", b"mst", b"puv"]);
    });
    check_cells(&screen, &end.screen);
}

#[test]
fn handed_out_and_put_back_changes_nothing_but_the_marks() {
    for (place, size, marks) in
        [(0, 11, lines(5, 7)), (1, 50, lines(8, 23)), (2, 26, lines(5, 7)), (3, 6, lines(22, 23))]
    {
        let client = four().slots[place].client;
        let mut screen = patterned();
        let mut block = vec![0x55; size];
        assert_eq!(block_return(four(), &screen, client, &mut block), (0, four(), size));
        let mut end = four();
        end.slots[place].port.marks = marks;
        assert_eq!(block_restore(four(), &mut screen, client, &block), (0, end, 0));
        check_cells(&screen, &patterned());
    }
}

/// One call of the next test, and whether its answer is the right one.
fn step(call: usize, multiplexer: &mut Multiplexer, screen: &mut [u8]) -> bool {
    let mut block = *b"???????";
    let (answer, wanted) = match call {
        0 => (write(*multiplexer, screen, 7, &[0x02, 0x2A, 0x25, 0x2B]), (0, 0)),
        1 => (write(*multiplexer, screen, 7, &[0x26, 0x42, 0x07]), (0, 1)),
        2 => (block_return(*multiplexer, screen, 7, &mut block), (0, 6)),
        3 => (write(*multiplexer, screen, 1, &[0x0F, 0x01, 0x04, 0x41]), (0, 0)),
        4 => (block_restore(*multiplexer, screen, 1, b"\x02\x02????!"), (10, 0)),
        5 => (block_restore(*multiplexer, screen, 1, b"\x02\x02wxyz"), (0, 0)),
        _ => (write(*multiplexer, screen, 9, &[0x07, 0x0C]), (8, 0)),
    };
    let block_wanted = if call == 2 { b"\x02\x02\x82bde?" } else { b"???????" };
    *multiplexer = answer.1;
    (answer.0, answer.2) == wanted && &block == block_wanted
}

#[test]
fn order_between_clients_does_not_matter() {
    let mut end = start();
    end.slots[0].port.state.viewport = rectangle(10, 5, 11, 6);
    end.slots[0].port.state.cursor = Cursor { column: 11, line: 5 };
    end.slots[0].port.marks = lines(5, 5);
    end.slots[3].port.state.inverse = true;
    end.slots[3].port.state.cursor = Cursor { column: 79, line: 22 };
    end.slots[3].port.has_saved = true;
    end.slots[3].port.saved = slot(1, 78, 22, 79, 23).port.state;
    end.slots[3].port.saved.inverse = true;
    end.slots[3].port.marks = lines(22, 23);
    let cells = small().but(|c| {
        c.rows([b"\x82bc", b"def", b"ghi"]);
        c.store(78, 22, b'w').store(79, 22, b'x').store(78, 23, b'y').store(79, 23, b'z');
    });
    for order in [[0, 1, 2, 3, 4, 5, 6], [6, 3, 4, 5, 0, 1, 2], [3, 0, 4, 6, 1, 5, 2]] {
        let mut multiplexer = start();
        let mut screen = small().screen;
        for call in order {
            assert!(step(call, &mut multiplexer, &mut screen), "call {} of {:?}", call, order);
        }
        assert_eq!(multiplexer, end);
        check_cells(&screen, &cells.screen);
    }
}
