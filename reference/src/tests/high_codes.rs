//! High codes through the console: in normal mode they lose 128, in inverse
//! mode they are stored unchanged, MouseText on or off.

use super::stored::ROWS;
use super::{check, fresh, fresh_in, rectangle, small, Console};
use crate::port::State;

/// The columns of `ROWS`.
const CODE: usize = 0;
const NORMAL: usize = 1;
const INVERSE: usize = 2;
const MOUSETEXT: usize = 3;

/// A screen without a high byte, so that each unchanged high code is seen.
fn low() -> Console {
    fresh_in(rectangle(0, 0, 79, 23))
}

fn in_mode(console: Console, inverse: bool, mousetext: bool) -> Console {
    console.but(|c| {
        c.port.state.inverse = inverse;
        c.port.state.mousetext = mousetext;
    })
}

/// The bytes stored from the top left of the whole screen on, the cursor
/// behind them; they must not fill the screen.
fn printed(start: &Console, bytes: &[u8]) -> Console {
    let place = |count: usize| ((count % 80) as u8, (count / 80) as u8);
    start.but(|c| {
        for (count, byte) in bytes.iter().enumerate() {
            let (column, line) = place(count);
            c.store(column, line, *byte).mark(line, line);
        }
        let (column, line) = place(bytes.len());
        c.cursor(column, line);
    })
}

/// The first and the last of every row, in one column.
fn ends(column: usize) -> Vec<u8> {
    ROWS.iter().flat_map(|row| [row[column], row[column] + 31]).collect()
}

/// The high codes, or their bytes, in one column.
fn high(column: usize) -> Vec<u8> {
    ROWS[3..].iter().flat_map(|row| (0..32).map(move |step| row[column] + step)).collect()
}

#[test]
fn example_of_the_request() {
    // Inverse: the byte of a normal A, and not the picture at $41.
    let end = printed(&fresh(), &[0xC1]);
    check(&fresh(), &[0x0F, 0xC1], &in_mode(end.clone(), true, false), 0);
    check(&fresh(), &[0x0F, 0x1B, 0xC1], &in_mode(end, true, true), 0);
    // Normal: the picture, as before.
    let end = printed(&fresh(), &[0x41]);
    check(&fresh(), &[0xC1], &end, 0);
    check(&fresh(), &[0x1B, 0xC1], &in_mode(end, false, true), 0);
}

#[test]
fn ends_of_every_range_with_mode_codes_between() {
    let codes = &ends(CODE)[..];
    let [normal, inverse, mousetext] = [NORMAL, INVERSE, MOUSETEXT].map(ends);
    let stream = [codes, b"\x0F", codes, b"\x1B", codes, b"\x0E", codes, b"\x18", codes].concat();
    let bytes = [&normal[..], &inverse, &mousetext, &normal, &normal].concat();
    check(&fresh(), &stream, &printed(&fresh(), &bytes), 0);
    // MouseText on before inverse and off before normal.
    let stream = [&[0x1B][..], codes, b"\x0F", codes, b"\x18", codes, b"\x0E", codes].concat();
    let bytes = [&normal[..], &mousetext, &inverse, &normal].concat();
    check(&fresh(), &stream, &printed(&fresh(), &bytes), 0);
}

#[test]
fn all_high_codes_in_inverse() {
    let stream = [&[0x0F][..], &high(CODE)].concat();
    let end = in_mode(printed(&low(), &high(INVERSE)), true, false);
    check(&low(), &stream, &end, 0);
    let stream = [&[0x0F, 0x1B][..], &high(CODE)].concat();
    let end = in_mode(printed(&low(), &high(MOUSETEXT)), true, true);
    check(&low(), &stream, &end, 0);
}

#[test]
fn all_high_codes_in_normal() {
    // From inverse, so that $0E is what makes the difference.
    let start = in_mode(fresh(), true, true);
    let end = printed(&fresh(), &high(NORMAL));
    let stream = [&[0x0E][..], &high(CODE)].concat();
    check(&start, &stream, &in_mode(end.clone(), false, true), 0);
    let stream = [&[0x0E, 0x18][..], &high(CODE)].concat();
    check(&start, &stream, &end, 0);
}

#[test]
fn all_high_codes_with_mode_codes_between() {
    let codes = &high(CODE)[..];
    let [normal, inverse, mousetext] = [NORMAL, INVERSE, MOUSETEXT].map(high);
    // Normal, inverse, with MouseText, normal with it, inverse without it.
    let stream =
        [codes, b"\x0F", codes, b"\x1B", codes, b"\x0E", codes, b"\x18\x0F", codes].concat();
    let bytes = [&normal[..], &inverse, &mousetext, &normal, &inverse].concat();
    let end = in_mode(printed(&fresh(), &bytes), true, false);
    check(&fresh(), &stream, &end, 0);
}

#[test]
fn each_high_code_with_mode_codes_between() {
    // No cell holds its byte beforehand: two get high bytes and hold $55, two
    // get low bytes and hold blanks.
    let start = fresh().but(|c| {
        c.store(0, 0, 0x55).store(1, 0, 0x55);
    });
    for code in 0x80..=0xFF {
        let stream = [0x0F, code, 0x1B, code, 0x0E, code, 0x18, code];
        let end = printed(&start, &[code, code, code - 128, code - 128]);
        check(&start, &stream, &end, 0);
    }
}

#[test]
fn blank_printed_in_inverse() {
    // $A0 is stored unchanged: an equal byte here, and marked all the same.
    let end = in_mode(fresh(), true, false).but(|c| {
        c.cursor(1, 0).mark(0, 0);
    });
    check(&fresh(), &[0x0F, 0xA0], &end, 0);
}

#[test]
fn inverse_saved_and_taken_back() {
    // $01 makes the mode normal for the cell at (1,0); $04 brings inverse
    // and the cursor at (0,0) back.
    let end = fresh().but(|c| {
        c.store(1, 0, 0x41).store(0, 0, 0xC1).mark(0, 0);
        c.port.has_saved = true;
        c.port.saved = State { inverse: true, ..c.port.state };
        c.cursor(1, 0);
        c.port.state.inverse = true;
    });
    check(&fresh(), &[0x0F, 0x01, 0x1C, 0xC1, 0x04, 0xC1], &end, 0);
}

#[test]
fn high_codes_in_inverse_wrap_and_scroll() {
    let start = in_mode(small(), true, false).but(|c| {
        c.cursor(12, 6);
    });
    // The first one wraps, and the last one scrolls up with its line.
    let end = start.but(|c| {
        c.rows([b"de\xC1", b"\xE2\x9F\x80", b"..."]).cursor(10, 7).mark(5, 7);
    });
    check(&start, b"\xC1\xE2\x9F\x80", &end, 0);
}
