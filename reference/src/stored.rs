//! From a printing code to the byte stored on the screen.

use crate::port::BLANK;

/// The range rule. MouseText matters to $40-$5F in inverse mode only.
pub fn stored_byte(code: u8, inverse: bool, mousetext: bool) -> u8 {
    match code {
        // Control codes are never stored.
        0x00..=0x1F => BLANK,
        // Symbols, digits and lower case.
        0x20..=0x3F | 0x60..=0x7F => {
            if inverse {
                code
            } else {
                code + 128
            }
        }
        // Upper case: $80-$9F, $00-$1F, or MouseText at $40-$5F.
        0x40..=0x5F => {
            if !inverse {
                code - 0x40 + 0x80
            } else if !mousetext {
                code - 0x40
            } else {
                code
            }
        }
        // High codes show inverse and MouseText in normal mode. In inverse
        // mode they show normal text, so MouseText changes nothing there.
        0x80..=0xFF => {
            if inverse {
                code
            } else {
                code - 128
            }
        }
    }
}
