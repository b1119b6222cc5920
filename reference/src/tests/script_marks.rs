//! Scripts: the takings, and the marks in every answer.

use super::scripts::{answer, check, corner, first, taken};
use super::scripts::{BLANKS, NONE, NO_MARKS, OPEN, OPENED};
use crate::script::run_script;

#[test]
fn taking_call() {
    let blank = corner(BLANKS);
    let written = corner([0x81, 0xA0, 0xA0, 0xA0]);
    let line_22 = [0, 0, 0x40, 0];
    let script = [
        &OPEN[..],
        &[5, 7],
        &[5, 7],
        &[2, 7, 1, 0, 0x41],
        // Not open, never open, then the one that is.
        &[5, 8],
        &[5, 0],
        &[5, 7],
    ];
    let answers = [
        answer(0, NONE, &[], OPENED, &blank),
        taken(0, [2, 0, 0, 0], [0, 0, 0xC0, 0], NO_MARKS, &blank),
        taken(0, NONE, NONE, NO_MARKS, &blank),
        answer(0, NONE, &[], first(line_22), &written),
        taken(8, NONE, NONE, first(line_22), &written),
        taken(8, NONE, NONE, first(line_22), &written),
        taken(0, [1, 0, 0, 0], line_22, NO_MARKS, &written),
    ];
    check(&script.concat(), &answers, &written);
}

#[test]
fn marks_of_every_slot_in_order() {
    // Lines 0 and 1, 2 to 9, 8 to 16, and 22 and 23.
    let script = [
        &[0, 9, 0, 0, 1, 1][..],
        &[0, 8, 0, 2, 1, 9],
        &[0, 6, 2, 8, 3, 16],
        &OPEN,
        &[5, 8],
        &[1, 6],
    ];
    let held = [
        [3, 0, 0, 0, 0, 0, 0, 0, 0, 0, 0, 0, 0, 0, 0, 0],
        [3, 0, 0, 0, 0xFC, 3, 0, 0, 0, 0, 0, 0, 0, 0, 0, 0],
        [3, 0, 0, 0, 0xFC, 3, 0, 0, 0, 0xFF, 1, 0, 0, 0, 0, 0],
        [3, 0, 0, 0, 0xFC, 3, 0, 0, 0, 0xFF, 1, 0, 0, 0, 0xC0, 0],
        [3, 0, 0, 0, 0, 0, 0, 0, 0, 0xFF, 1, 0, 0, 0, 0xC0, 0],
        [3, 0, 0, 0, 0, 0, 0, 0, 0, 0, 0, 0, 0, 0, 0xC0, 0],
    ];
    let blank = [0xA0; 1920];
    let mut answers = Vec::new();
    for held in held {
        answers.push(answer(0, NONE, &[], held, &blank));
    }
    answers[4] = taken(0, [8, 0, 0, 0], [0xFC, 3, 0, 0], held[4], &blank);
    assert_eq!(run_script(&script.concat(), &mut [0xA0; 1920]), answers.concat());
}
