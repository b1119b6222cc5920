//! The codes that move or place the cursor, at their edges.

use super::{check, check_idle, fresh, small, Console};

fn at(column: u8, line: u8) -> Console {
    small().but(|c| {
        c.cursor(column, line);
    })
}

fn flags(console: &Console, scroll: bool, wrap: bool) -> Console {
    console.but(|c| {
        c.scroll(scroll).wrap(wrap);
    })
}

const UP: [&[u8; 3]; 3] = [b"def", b"ghi", b"..."];
const DOWN: [&[u8; 3]; 3] = [b"...", b"abc", b"def"];

#[test]
fn backspace() {
    check(&at(11, 6), &[0x08], &at(10, 6), 0);
    check(&at(10, 6), &[0x08], &at(12, 5), 0);
    check_idle(&flags(&at(10, 6), true, false), &[0x08]);
    let end = at(12, 5).but(|c| {
        c.rows(DOWN).mark(5, 7);
    });
    check(&at(10, 5), &[0x08], &end, 0);
    check_idle(&flags(&at(10, 5), false, true), &[0x08]);
    check_idle(&flags(&at(10, 5), true, false), &[0x08]);
    check_idle(&flags(&at(10, 5), false, false), &[0x08]);
    // Wrapping to the line above needs no scroll.
    check(&flags(&at(10, 6), false, true), &[0x08], &flags(&at(12, 5), false, true), 0);
}

#[test]
fn cursor_right() {
    check(&at(11, 6), &[0x1C], &at(12, 6), 0);
    check(&at(12, 6), &[0x1C], &at(10, 7), 0);
    check_idle(&flags(&at(12, 6), true, false), &[0x1C]);
    let end = at(10, 7).but(|c| {
        c.rows(UP).mark(5, 7);
    });
    check(&at(12, 7), &[0x1C], &end, 0);
    check_idle(&flags(&at(12, 7), false, true), &[0x1C]);
    check_idle(&flags(&at(12, 7), true, false), &[0x1C]);
    check_idle(&flags(&at(12, 7), false, false), &[0x1C]);
    check(&flags(&at(12, 6), false, true), &[0x1C], &flags(&at(10, 7), false, true), 0);
}

#[test]
fn line_feed() {
    check(&at(11, 6), &[0x0A], &at(11, 7), 0);
    let end = at(11, 7).but(|c| {
        c.rows(UP).mark(5, 7);
    });
    check(&at(11, 7), &[0x0A], &end, 0);
    check(&flags(&at(11, 7), true, false), &[0x0A], &flags(&end, true, false), 0);
    check_idle(&flags(&at(11, 7), false, true), &[0x0A]);
}

#[test]
fn cursor_up() {
    check(&at(11, 6), &[0x1F], &at(11, 5), 0);
    let end = at(11, 5).but(|c| {
        c.rows(DOWN).mark(5, 7);
    });
    check(&at(11, 5), &[0x1F], &end, 0);
    check(&flags(&at(11, 5), true, false), &[0x1F], &flags(&end, true, false), 0);
    check_idle(&flags(&at(11, 5), false, true), &[0x1F]);
}

#[test]
fn carriage_return() {
    check(&at(12, 6), &[0x0D], &at(10, 7), 0);
    let end = at(10, 7).but(|c| {
        c.rows(UP).mark(5, 7);
    });
    check(&at(12, 7), &[0x0D], &end, 0);
    check(&flags(&at(12, 7), false, true), &[0x0D], &flags(&at(10, 7), false, true), 0);
    let without = |console: Console| console.but(|c| c.port.state.flags.lf = false);
    check(&without(at(12, 6)), &[0x0D], &without(at(10, 6)), 0);
    check(&without(at(12, 7)), &[0x0D], &without(at(10, 7)), 0);
}

#[test]
fn home_cursor() {
    check(&at(12, 7), &[0x19], &at(10, 5), 0);
    check_idle(&at(10, 5), &[0x19]);
}

#[test]
fn set_line() {
    check(&at(11, 6), &[0x06, 0x20], &at(11, 5), 0);
    check(&at(11, 5), &[0x06, 0x21], &at(11, 6), 0);
    check(&at(11, 6), &[0x06, 0x22], &at(11, 7), 0);
    check(&at(11, 6), &[0x06, 0x23], &at(11, 7), 0);
    check(&at(11, 6), &[0x06, 0x80], &at(11, 7), 0);
    check(&at(11, 6), &[0x06, 0xFF], &at(11, 7), 0);
    check_idle(&at(11, 6), &[0x06, 0x1F]);
    check_idle(&at(11, 6), &[0x06, 0x00]);
}

#[test]
fn set_column() {
    check(&at(11, 6), &[0x14, 0x20], &at(10, 6), 0);
    check(&at(10, 6), &[0x14, 0x21], &at(11, 6), 0);
    check(&at(11, 6), &[0x14, 0x22], &at(12, 6), 0);
    check(&at(11, 6), &[0x14, 0x23], &at(12, 6), 0);
    check(&at(11, 6), &[0x14, 0x80], &at(12, 6), 0);
    check(&at(11, 6), &[0x14, 0xFF], &at(12, 6), 0);
    check_idle(&at(11, 6), &[0x14, 0x1F]);
    check_idle(&at(11, 6), &[0x14, 0x00]);
}

#[test]
fn set_line_and_column_of_the_whole_screen() {
    let placed = |column: u8, line: u8| {
        fresh().but(|c| {
            c.cursor(column, line);
        })
    };
    check(&fresh(), &[0x14, 0x6F], &placed(79, 0), 0);
    check(&fresh(), &[0x14, 0x70], &placed(79, 0), 0);
    check(&fresh(), &[0x14, 0x6E], &placed(78, 0), 0);
    check(&fresh(), &[0x06, 0x37], &placed(0, 23), 0);
    check(&fresh(), &[0x06, 0x38], &placed(0, 23), 0);
    check(&fresh(), &[0x06, 0x36], &placed(0, 22), 0);
}

#[test]
fn gotoxy() {
    check(&at(11, 6), &[0x1E, 0x20, 0x22], &at(10, 7), 0);
    check(&at(11, 6), &[0x1E, 0x22, 0x20], &at(12, 5), 0);
    check(&at(11, 6), &[0x1E, 0xFF, 0xFF], &at(12, 7), 0);
    // Each half by its own rule.
    check(&at(12, 5), &[0x1E, 0x00, 0x21], &at(12, 6), 0);
    check(&at(12, 5), &[0x1E, 0x21, 0x00], &at(11, 5), 0);
    check(&at(12, 5), &[0x1E, 0x20, 0x1F], &at(10, 5), 0);
    check_idle(&at(11, 6), &[0x1E, 0x1F, 0x1F]);
    check_idle(&at(11, 6), &[0x1E, 0x07, 0x0C]);
}
