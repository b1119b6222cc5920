//! Printing, erasing, scrolling and shifting.

use super::{check, check_idle, fresh, small, Console};

fn at(column: u8, line: u8) -> Console {
    small().but(|c| {
        c.cursor(column, line);
    })
}

/// The stream changes only the three lines of the small viewport, and marks
/// those from `top` to `bottom`.
fn check_rows(start: &Console, bytes: &[u8], rows: [&[u8; 3]; 3], top: u8, bottom: u8) {
    let end = start.but(|c| {
        c.rows(rows).mark(top, bottom);
    });
    check(start, bytes, &end, 0);
}

#[test]
fn idle_codes() {
    for code in [0x00, 0x09, 0x11, 0x12] {
        check_idle(&small(), &[code]);
    }
}

#[test]
fn printing_in_the_middle_and_at_the_edges() {
    let end = at(12, 6).but(|c| {
        c.rows([b"abc", b"d\x81f", b"ghi"]).mark(6, 6);
    });
    check(&at(11, 6), b"A", &end, 0);
    let end = at(10, 7).but(|c| {
        c.rows([b"abc", b"de\x81", b"ghi"]).mark(6, 6);
    });
    check(&at(12, 6), b"A", &end, 0);
    // At the last cell the printed letter scrolls up with its line.
    let end = at(10, 7).but(|c| {
        c.rows([b"def", b"gh\x81", b"..."]).mark(5, 7);
    });
    check(&at(12, 7), b"A", &end, 0);
}

#[test]
fn printing_without_wrap_scroll_or_advance() {
    let unwrapped = at(12, 6).but(|c| {
        c.wrap(false);
    });
    check_rows(&unwrapped, b"AB", [b"abc", b"de\x82", b"ghi"], 6, 6);
    let unscrolled = at(12, 7).but(|c| {
        c.scroll(false);
    });
    check_rows(&unscrolled, b"AB", [b"abc", b"def", b"gh\x82"], 7, 7);
    let still = at(11, 6).but(|c| c.port.state.flags.advance = false);
    check_rows(&still, b"AB", [b"abc", b"d\x82f", b"ghi"], 6, 6);
}

#[test]
fn erase_from_left_edge() {
    check_rows(&at(11, 6), &[0x03], [b"abc", b"..f", b"ghi"], 6, 6);
    check_rows(&at(10, 6), &[0x03], [b"abc", b".ef", b"ghi"], 6, 6);
    check_rows(&at(12, 6), &[0x03], [b"abc", b"...", b"ghi"], 6, 6);
}

#[test]
fn erase_to_right_edge() {
    check_rows(&at(11, 6), &[0x1D], [b"abc", b"d..", b"ghi"], 6, 6);
    check_rows(&at(10, 6), &[0x1D], [b"abc", b"...", b"ghi"], 6, 6);
    check_rows(&at(12, 6), &[0x1D], [b"abc", b"de.", b"ghi"], 6, 6);
}

#[test]
fn erase_line() {
    check_rows(&at(11, 5), &[0x1A], [b"...", b"def", b"ghi"], 5, 5);
    check_rows(&at(11, 6), &[0x1A], [b"abc", b"...", b"ghi"], 6, 6);
    check_rows(&at(12, 7), &[0x1A], [b"abc", b"def", b"..."], 7, 7);
}

#[test]
fn erase_from_first_cell() {
    check_rows(&at(10, 5), &[0x13], [b".bc", b"def", b"ghi"], 5, 5);
    check_rows(&at(11, 6), &[0x13], [b"...", b"..f", b"ghi"], 5, 6);
    check_rows(&at(12, 7), &[0x13], [b"...", b"...", b"..."], 5, 7);
}

#[test]
fn erase_to_last_cell() {
    check_rows(&at(10, 5), &[0x0B], [b"...", b"...", b"..."], 5, 7);
    check_rows(&at(11, 6), &[0x0B], [b"abc", b"d..", b"..."], 6, 7);
    check_rows(&at(12, 7), &[0x0B], [b"abc", b"def", b"gh."], 7, 7);
}

#[test]
fn erase_viewport_and_home_the_cursor() {
    let end = at(10, 5).but(|c| {
        c.rows([b"...", b"...", b"..."]).mark(5, 7);
    });
    check(&at(11, 6), &[0x0C], &end, 0);
}

#[test]
fn erasing_in_inverse_stores_blanks() {
    let inverse = at(11, 6).but(|c| c.port.state.inverse = true);
    check_rows(&inverse, &[0x1A], [b"abc", b"...", b"ghi"], 6, 6);
    check_rows(&inverse, &[0x17], [b"def", b"ghi", b"..."], 5, 7);
    check_rows(&inverse, &[0x05, 0x01], [b".ab", b".de", b".gh"], 5, 7);
}

#[test]
fn scroll_down_and_up() {
    for (column, line) in [(10, 5), (11, 6), (12, 7)] {
        check_rows(&at(column, line), &[0x16], [b"...", b"abc", b"def"], 5, 7);
        check_rows(&at(column, line), &[0x17], [b"def", b"ghi", b"..."], 5, 7);
    }
    // The scroll flag concerns the cursor, not these codes.
    let unscrolled = at(11, 6).but(|c| {
        c.scroll(false);
    });
    check_rows(&unscrolled, &[0x16], [b"...", b"abc", b"def"], 5, 7);
    check_rows(&unscrolled, &[0x17], [b"def", b"ghi", b"..."], 5, 7);
}

#[test]
fn shift_the_small_viewport() {
    check_idle(&small(), &[0x05, 0x00]);
    check_rows(&small(), &[0x05, 0x01], [b".ab", b".de", b".gh"], 5, 7);
    check_rows(&small(), &[0x05, 0x02], [b"..a", b"..d", b"..g"], 5, 7);
    check_rows(&small(), &[0x05, 0xFF], [b"bc.", b"ef.", b"hi."], 5, 7);
    check_rows(&small(), &[0x05, 0xFE], [b"c..", b"f..", b"i.."], 5, 7);
    // The width or more, either way.
    for amount in [0x03, 0x04, 0x7F, 0xFD, 0xFC, 0x81, 0x80] {
        check_rows(&small(), &[0x05, amount], [b"...", b"...", b"..."], 5, 7);
    }
}

#[test]
fn shift_the_whole_screen() {
    let start = fresh().but(|c| {
        c.store(0, 0, 0x41).store(79, 0, 0x42).store(0, 23, 0x43).cursor(40, 12);
    });
    let empty = fresh().but(|c| {
        c.cursor(40, 12).mark(0, 23);
    });
    // 79 to the right, 80, then 79 to the left ($B1) and 80 ($B0).
    let right = empty.but(|c| {
        c.store(79, 0, 0x41).store(79, 23, 0x43);
    });
    check(&start, &[0x05, 0x4F], &right, 0);
    check(&start, &[0x05, 0x50], &empty, 0);
    let left = empty.but(|c| {
        c.store(0, 0, 0x42);
    });
    check(&start, &[0x05, 0xB1], &left, 0);
    check(&start, &[0x05, 0xB0], &empty, 0);
}
