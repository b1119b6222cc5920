//! The stored byte of every code in each mode.

use crate::stored::stored_byte;

/// Table 9-1 from $20 on, a row for each 32 codes: the first code, then its
/// byte in normal, inverse, and inverse with MouseText. The others of a row
/// follow in order. The last four rows are the high codes.
pub const ROWS: [[u8; 4]; 7] = [
    [0x20, 0xA0, 0x20, 0x20],
    [0x40, 0x80, 0x00, 0x40],
    [0x60, 0xE0, 0x60, 0x60],
    [0x80, 0x00, 0x80, 0x80],
    [0xA0, 0x20, 0xA0, 0xA0],
    [0xC0, 0x40, 0xC0, 0xC0],
    [0xE0, 0x60, 0xE0, 0xE0],
];

/// One code with MouseText off and on: normal mode first, then inverse.
fn check_code(code: u8, wanted: [u8; 4]) {
    let normal = [stored_byte(code, false, false), stored_byte(code, false, true)];
    let inverse = [stored_byte(code, true, false), stored_byte(code, true, true)];
    assert_eq!([normal, inverse].concat(), wanted, "code {:02X}", code);
}

#[test]
fn every_code_in_each_mode() {
    for code in 0x00..=0x1F {
        check_code(code, [0xA0, 0xA0, 0xA0, 0xA0]);
    }
    for [code, normal, inverse, mousetext] in ROWS {
        for step in 0..32 {
            let wanted = [normal + step, normal + step, inverse + step, mousetext + step];
            check_code(code + step, wanted);
        }
    }
}
