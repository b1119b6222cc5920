//! Scripts: the form of each call and answer, and where a run ends.

use super::multiplexers::check_cells;
use super::patterned;
use crate::script::run_script;

/// The bytes of an answer to a call that is no taking: status, four of the
/// count, four zeros, lent block, the marks in the four slots, all cells.
pub fn answer(status: u8, count: [u8; 4], block: &[u8], held: [u8; 16], screen: &[u8]) -> Vec<u8> {
    let mut bytes = vec![status, count[0], count[1], count[2], count[3], 0, 0, 0, 0];
    bytes.extend_from_slice(block);
    bytes.extend_from_slice(&held);
    bytes.extend_from_slice(screen);
    bytes
}

/// The bytes of an answer to a taking, the marks after the count.
pub fn taken(status: u8, count: [u8; 4], marks: [u8; 4], held: [u8; 16], screen: &[u8]) -> Vec<u8> {
    let mut bytes = answer(status, count, &[], held, screen);
    bytes[5..9].copy_from_slice(&marks);
    bytes
}

/// Marks in the lowest slot only.
pub fn first(marks: [u8; 4]) -> [u8; 16] {
    let mut held = NO_MARKS;
    held[..4].copy_from_slice(&marks);
    held
}

/// The patterned screen with these cells at (78,22), (79,22), (78,23)
/// and (79,23).
pub fn corner(cells: [u8; 4]) -> Vec<u8> {
    let mut screen = patterned();
    screen[22 * 80 + 78] = cells[0];
    screen[22 * 80 + 79] = cells[1];
    screen[23 * 80 + 78] = cells[2];
    screen[23 * 80 + 79] = cells[3];
    screen
}

pub fn check(script: &[u8], answers: &[Vec<u8>], end: &[u8]) {
    let mut screen = patterned();
    let got = run_script(script, &mut screen);
    assert!(got == answers.concat(), "script {:?}", script);
    check_cells(&screen, end);
}

pub const NONE: [u8; 4] = [0, 0, 0, 0];
pub const NO_MARKS: [u8; 16] = [0; 16];
pub const BLANKS: [u8; 4] = [0xA0, 0xA0, 0xA0, 0xA0];

/// Client 7 in the bottom right corner.
pub const OPEN: [u8; 6] = [0, 7, 78, 22, 79, 23];

/// Its slot is the lowest, and lines 22 and 23 are marked.
pub const OPENED: [u8; 16] = [0, 0, 0xC0, 0, 0, 0, 0, 0, 0, 0, 0, 0, 0, 0, 0, 0];

#[test]
fn empty_script() {
    check(&[], &[], &patterned());
}

#[test]
fn open_call() {
    let screen = corner(BLANKS);
    check(&OPEN, &[answer(0, NONE, &[], OPENED, &screen)], &screen);
    // Refused: the cells follow all the same.
    let screen = patterned();
    check(&[0, 0, 78, 22, 79, 23], &[answer(3, NONE, &[], NO_MARKS, &screen)], &screen);
    check(&[0, 7, 78, 22, 79, 24], &[answer(4, NONE, &[], NO_MARKS, &screen)], &screen);
    check(&[0, 7, 79, 22, 78, 23], &[answer(4, NONE, &[], NO_MARKS, &screen)], &screen);
}

#[test]
fn open_call_takes_left_top_right_bottom() {
    let mut screen = patterned();
    for line in 2..=4 {
        for column in 1..=3 {
            screen[line * 80 + column] = 0xA0;
        }
    }
    let held = first([0x1C, 0, 0, 0]);
    check(&[0, 255, 1, 2, 3, 4], &[answer(0, NONE, &[], held, &screen)], &screen);
}

#[test]
fn write_call() {
    let blank = corner(BLANKS);
    let written = corner([0x81, 0x82, 0xA0, 0xA0]);
    let script = [&OPEN[..], &[2, 7, 3, 0, 0x41, 0x07, 0x42], &[2, 7, 0, 0]].concat();
    let answers = [
        answer(0, NONE, &[], OPENED, &blank),
        answer(0, [1, 0, 0, 0], &[], OPENED, &written),
        answer(0, NONE, &[], OPENED, &written),
    ];
    check(&script, &answers, &written);
}

#[test]
fn lengths_and_counts_have_the_low_byte_first() {
    // 258 bells: $02 $01 both as a length and as a count.
    let screen = corner(BLANKS);
    let script = [&OPEN[..], &[2, 7, 2, 1], &[0x07; 258]].concat();
    let answers =
        [answer(0, NONE, &[], OPENED, &screen), answer(0, [2, 1, 0, 0], &[], OPENED, &screen)];
    check(&script, &answers, &screen);
    // A block of the whole screen: 1,922 is $82 $07.
    let blank = [0xA0; 1920];
    let lent = [0x55; 1922];
    let block = [&[80, 24][..], &blank].concat();
    let script = [&[0, 1, 0, 0, 79, 23, 3, 1, 0x82, 0x07][..], &lent].concat();
    let held = first([0xFF, 0xFF, 0xFF, 0]);
    let answers =
        [answer(0, NONE, &[], held, &blank), answer(0, [0x82, 7, 0, 0], &block, held, &blank)];
    check(&script, &answers, &blank);
}

#[test]
fn block_return_call() {
    let blank = corner(BLANKS);
    let written = corner([0x81, 0x82, 0xA0, 0xA0]);
    let script = [
        &OPEN[..],
        &[2, 7, 2, 0, 0x41, 0x42],
        // Eight bytes lent, six, five, none; and for a client not open.
        &[3, 7, 8, 0, 21, 22, 23, 24, 25, 26, 27, 28],
        &[3, 7, 6, 0, 21, 22, 23, 24, 25, 26],
        &[3, 7, 5, 0, 21, 22, 23, 24, 25],
        &[3, 7, 0, 0],
        &[3, 8, 2, 0, 21, 22],
    ];
    let answers = [
        answer(0, NONE, &[], OPENED, &blank),
        answer(0, NONE, &[], OPENED, &written),
        answer(0, [6, 0, 0, 0], &[2, 2, 0x81, 0x82, 0xA0, 0xA0, 27, 28], OPENED, &written),
        answer(0, [6, 0, 0, 0], &[2, 2, 0x81, 0x82, 0xA0, 0xA0], OPENED, &written),
        answer(9, NONE, &[21, 22, 23, 24, 25], OPENED, &written),
        answer(9, NONE, &[], OPENED, &written),
        answer(8, NONE, &[21, 22], OPENED, &written),
    ];
    check(&script.concat(), &answers, &written);
}

#[test]
fn block_restore_call() {
    let blank = corner(BLANKS);
    let restored = corner([1, 2, 3, 4]);
    let script = [
        &OPEN[..],
        &[4, 7, 6, 0, 2, 2, 1, 2, 3, 4],
        &[4, 7, 6, 0, 2, 3, 5, 6, 7, 8],
        &[4, 7, 0, 0],
        &[4, 0, 6, 0, 2, 2, 5, 6, 7, 8],
    ];
    // The lent block is no part of these answers.
    let answers = [
        answer(0, NONE, &[], OPENED, &blank),
        answer(0, NONE, &[], OPENED, &restored),
        answer(10, NONE, &[], OPENED, &restored),
        answer(10, NONE, &[], OPENED, &restored),
        answer(8, NONE, &[], OPENED, &restored),
    ];
    check(&script.concat(), &answers, &restored);
}

#[test]
fn close_call() {
    let blank = corner(BLANKS);
    let written = corner([0x81, 0xA0, 0xA0, 0xA0]);
    let script = [&OPEN[..], &[2, 7, 1, 0, 0x41], &[1, 7], &[1, 7], &OPEN, &OPEN].concat();
    // The text stays until the next opening blanks it.
    let answers = [
        answer(0, NONE, &[], OPENED, &blank),
        answer(0, NONE, &[], OPENED, &written),
        answer(0, NONE, &[], NO_MARKS, &written),
        answer(8, NONE, &[], NO_MARKS, &written),
        answer(0, NONE, &[], OPENED, &blank),
        answer(5, NONE, &[], OPENED, &blank),
    ];
    check(&script, &answers, &blank);
}

#[test]
fn cut_off_call_ends_the_run() {
    let blank = corner(BLANKS);
    let calls = [
        &[0, 8, 0, 0, 1, 1][..],
        &[1, 7],
        &[2, 7, 2, 0, 0x41, 0x42],
        &[2, 7, 0, 1, 0x41, 0x42],
        &[3, 7, 6, 0, 1, 2, 3, 4, 5, 6],
        &[4, 7, 6, 0, 2, 2, 3, 4, 5, 6],
        &[5, 7],
    ];
    for call in calls {
        for size in 0..call.len() {
            let script = [&OPEN[..], &call[..size]].concat();
            check(&script, &[answer(0, NONE, &[], OPENED, &blank)], &blank);
        }
    }
    // 256 bytes announced, two there.
    let script = [&OPEN[..], calls[3]].concat();
    check(&script, &[answer(0, NONE, &[], OPENED, &blank)], &blank);
}

#[test]
fn unknown_kind_ends_the_run() {
    let blank = corner(BLANKS);
    for kind in 6..=255 {
        let script = [&OPEN[..], &[kind, 7, 0, 0], &[1, 7], &[2, 7, 1, 0, 0x41]].concat();
        check(&script, &[answer(0, NONE, &[], OPENED, &blank)], &blank);
        check(&[kind], &[], &patterned());
    }
}

#[test]
fn screen_of_another_length() {
    for size in [0, 3, 1919, 1921] {
        let mut screen = vec![0x41; size];
        let script =
            [&OPEN[..], &[1, 7], &[2, 7, 1, 0, 7], &[3, 7, 1, 0, 9], &[4, 7, 0, 0], &[5, 7]];
        let got = run_script(&script.concat(), &mut screen);
        assert_eq!(screen, vec![0x41; size]);
        // A close and a taking are lent no screen, so they can only miss the
        // client.
        let answers = [
            answer(1, NONE, &[], NO_MARKS, &screen),
            answer(8, NONE, &[], NO_MARKS, &screen),
            answer(1, NONE, &[], NO_MARKS, &screen),
            answer(1, NONE, &[9], NO_MARKS, &screen),
            answer(1, NONE, &[], NO_MARKS, &screen),
            taken(8, NONE, NONE, NO_MARKS, &screen),
        ];
        assert_eq!(got, answers.concat());
    }
}
