//! Which lines each code marks on a plain console, and which none.

use super::{check, check_idle, fresh, fresh_in, lines, rectangle, small, Console};
use crate::console::{take_marks, write};
use crate::port::Port;

/// The small viewport, lines 5 to 7, without a cell changed or a line marked.
fn at(column: u8, line: u8) -> Console {
    small().but(|c| {
        c.cursor(column, line);
    })
}

/// The marks that the stream leaves on a port without marks. With others
/// there before, those stay, and the cells and the rest are the same.
fn marks_after(start: &Console, bytes: &[u8]) -> u32 {
    let unmarked = Port { marks: 0, ..start.port };
    let mut screen = start.screen.clone();
    let (status, end, bells) = write(unmarked, &mut screen, bytes);
    assert_eq!(status, 0);
    let home = start.port.home;
    for before in [lines(home.top, home.top), lines(6, home.bottom), lines(home.top, home.bottom)] {
        let marked = Port { marks: before, ..start.port };
        let mut again = start.screen.clone();
        let wanted = Port { marks: before | end.marks, ..end };
        assert_eq!(write(marked, &mut again, bytes), (0, wanted, bells), "{:02X?}", bytes);
        assert_eq!(again, screen);
    }
    end.marks
}

#[test]
fn printing_marks_the_line_it_stores_to() {
    for code in 0x20..=0xFF {
        assert_eq!(marks_after(&at(11, 6), &[code]), lines(6, 6), "code {:02X}", code);
        // The line of the letter, and not the one that the cursor goes to.
        assert_eq!(marks_after(&at(12, 5), &[code]), lines(5, 5), "code {:02X}", code);
        // At the last cell the viewport scrolls as well.
        assert_eq!(marks_after(&at(12, 7), &[code]), lines(5, 7), "code {:02X}", code);
    }
    for line in 0..24 {
        let start = fresh().but(|c| {
            c.cursor(79, line).scroll(false);
        });
        assert_eq!(marks_after(&start, b"A"), 1 << line);
    }
}

#[test]
fn equal_bytes_mark_as_well() {
    // A space on a blank screen, and a $61 where a $61 is.
    assert_eq!(marks_after(&fresh(), &[0x20]), lines(0, 0));
    assert_eq!(marks_after(&at(10, 5), &[0xE1]), lines(5, 5));
    // Erasing, scrolling and shifting blanks.
    for code in [0x03, 0x1D, 0x1A, 0x13] {
        assert_eq!(marks_after(&fresh(), &[code]), lines(0, 0), "code {:02X}", code);
    }
    for code in [0x0B, 0x0C, 0x16, 0x17, 0x08, 0x1F] {
        assert_eq!(marks_after(&fresh(), &[code]), lines(0, 23), "code {:02X}", code);
    }
    assert_eq!(marks_after(&fresh(), &[0x05, 0x01]), lines(0, 23));
}

#[test]
fn erasing_marks_the_lines_erased() {
    for line in 5..=7 {
        for column in 10..=12 {
            let start = at(column, line);
            assert_eq!(marks_after(&start, &[0x03]), lines(line, line));
            assert_eq!(marks_after(&start, &[0x1D]), lines(line, line));
            assert_eq!(marks_after(&start, &[0x1A]), lines(line, line));
            assert_eq!(marks_after(&start, &[0x13]), lines(5, line));
            assert_eq!(marks_after(&start, &[0x0B]), lines(line, 7));
            assert_eq!(marks_after(&start, &[0x0C]), lines(5, 7));
        }
    }
}

#[test]
fn scrolls_mark_the_viewport() {
    for start in [at(10, 5), at(11, 6), at(12, 7)] {
        assert_eq!(marks_after(&start, &[0x16]), lines(5, 7));
        assert_eq!(marks_after(&start, &[0x17]), lines(5, 7));
    }
    // $08, $1F, $1C, $0A and $0D where they scroll.
    assert_eq!(marks_after(&at(10, 5), &[0x08]), lines(5, 7));
    assert_eq!(marks_after(&at(11, 5), &[0x1F]), lines(5, 7));
    assert_eq!(marks_after(&at(12, 7), &[0x1C]), lines(5, 7));
    assert_eq!(marks_after(&at(11, 7), &[0x0A]), lines(5, 7));
    assert_eq!(marks_after(&at(11, 7), &[0x0D]), lines(5, 7));
}

#[test]
fn shifts_mark_the_viewport_unless_by_0() {
    check_idle(&small(), &[0x05, 0x00]);
    for amount in 1..=255 {
        assert_eq!(marks_after(&small(), &[0x05, amount]), lines(5, 7), "amount {}", amount);
    }
}

#[test]
fn dle_spaces_mark_as_printing_does() {
    for none in [0x00, 0x1F, 0x20] {
        check_idle(&small(), &[0x10, none]);
    }
    assert_eq!(marks_after(&at(11, 5), &[0x10, 0x22]), lines(5, 5));
    assert_eq!(marks_after(&at(11, 5), &[0x10, 0x23]), lines(5, 6));
    assert_eq!(marks_after(&at(11, 7), &[0x10, 0x21]), lines(7, 7));
    assert_eq!(marks_after(&at(11, 7), &[0x10, 0x22]), lines(5, 7));
    let off = small().but(|c| c.port.state.flags.dle = false);
    check_idle(&off, &[0x10, 0x25]);
}

#[test]
fn codes_that_store_no_cell_mark_nothing() {
    // The cursor on the e, with room on every side.
    let idle = [0x00, 0x07, 0x08, 0x09, 0x0A, 0x0D, 0x0E, 0x0F, 0x11, 0x12];
    for code in idle.iter().chain(&[0x18, 0x19, 0x1B, 0x1C, 0x1F, 0x01, 0x04]) {
        assert_eq!(marks_after(&at(11, 6), &[*code]), 0, "code {:02X}", code);
    }
    // Without wrap or scroll the edges scroll nothing either.
    let without = |console: Console| {
        console.but(|c| {
            c.scroll(false).wrap(false);
        })
    };
    for code in [0x08, 0x0A, 0x0D, 0x1C, 0x1F] {
        for corner in [at(10, 5), at(12, 5), at(10, 7), at(12, 7)] {
            assert_eq!(marks_after(&without(corner), &[code]), 0, "code {:02X}", code);
        }
    }
    for bytes in [&[0x06, 0x22][..], &[0x14, 0x22], &[0x15, 0x00], &[0x1E, 0x22, 0x22]] {
        assert_eq!(marks_after(&small(), bytes), 0, "{:02X?}", bytes);
    }
    // A parameter that looks like a code that marks, and one still awaited.
    for bytes in [&[0x06, 0x0C][..], &[0x1E, 0x41, 0x16], &[0x05], &[0x10], &[0x02, 0x41, 0x0C]] {
        assert_eq!(marks_after(&small(), bytes), 0, "{:02X?}", bytes);
    }
}

#[test]
fn setting_the_viewport_leaves_the_marks() {
    // $02 done, then ignored; the marks outside the new viewport stay.
    let start = small().but(|c| {
        c.mark(0, 1).mark(6, 6).mark(23, 23);
    });
    let end = start.but(|c| {
        c.port.state.viewport = rectangle(20, 8, 25, 12);
        c.cursor(20, 8);
    });
    check(&start, &[0x02, 0x34, 0x28, 0x39, 0x2C], &end, 0);
    check_idle(&start, &[0x02, 0x34, 0x28, 0x34, 0x2C]);
    // What is erased next adds the lines of the new one.
    let erased = end.but(|c| {
        for line in 8..=12 {
            for column in 20..=25 {
                c.store(column, line, 0xA0);
            }
        }
        c.mark(8, 12);
    });
    check(&start, &[0x02, 0x34, 0x28, 0x39, 0x2C, 0x0C], &erased, 0);
}

#[test]
fn save_and_restore_leave_the_marks() {
    // A letter on line 6, $01, a letter on line 0, $04.
    let mut screen = small().screen;
    let (_, port, _) = write(small().port, &mut screen, &[0x41]);
    let (_, port, _) = write(port, &mut screen, &[0x01]);
    assert_eq!(port.marks, lines(6, 6));
    let (_, port, _) = write(port, &mut screen, &[0x41, 0x04]);
    assert_eq!(port.state.viewport, rectangle(10, 5, 12, 7));
    assert_eq!(port.marks, lines(0, 0) | lines(6, 6));
    // Once they are taken, $04 brings none of them back.
    let (_, port, _, _) = take_marks(port);
    assert_eq!(write(port, &mut screen, &[0x04]), (0, port, 0));
    // $04 without a save.
    let marked = Port { marks: lines(3, 4), ..Port::fresh() };
    assert_eq!(write(marked, &mut screen, &[0x04]), (0, marked, 0));
}

#[test]
fn marks_are_kept_to_home() {
    // Lines of the viewport, or of home after $01, and no others.
    let start = fresh_in(rectangle(10, 5, 30, 15)).but(|c| {
        c.port.state.viewport = rectangle(12, 8, 14, 9);
        c.cursor(13, 8);
    });
    assert_eq!(marks_after(&start, &[0x0C]), lines(8, 9));
    assert_eq!(marks_after(&start, &[0x01, 0x0C]), lines(5, 15));
    assert_eq!(marks_after(&start, &[0x02, 0x20, 0x20, 0x7F, 0x7F, 0x17]), lines(5, 15));
}
