//! The examples P1 to P12, the further examples and the four slips.

use super::{check, check_idle, fresh, fresh_in, rectangle, Console};
use crate::console::write;
use crate::port::{Cursor, Port, State};

#[test]
fn p1_normal_letter() {
    let end = fresh().but(|c| {
        c.store(0, 0, 0x81).cursor(1, 0).mark(0, 0);
    });
    assert_eq!(end.port.state.viewport, rectangle(0, 0, 79, 23));
    check(&fresh(), &[0x41], &end, 0);
}

#[test]
fn p2_inverse_letter() {
    let end = fresh().but(|c| {
        c.store(0, 0, 0x01).cursor(1, 0).mark(0, 0);
        c.port.state.inverse = true;
    });
    check(&fresh(), &[0x0F, 0x41], &end, 0);
}

#[test]
fn p3_mousetext_letter() {
    let end = fresh().but(|c| {
        c.store(0, 0, 0x41).cursor(1, 0).mark(0, 0);
        c.port.state.inverse = true;
        c.port.state.mousetext = true;
    });
    check(&fresh(), &[0x0F, 0x1B, 0x41], &end, 0);
}

#[test]
fn p4_mousetext_needs_inverse() {
    let end = fresh().but(|c| {
        c.store(0, 0, 0x81).cursor(1, 0).mark(0, 0);
        c.port.state.mousetext = true;
    });
    check(&fresh(), &[0x1B, 0x41], &end, 0);
}

#[test]
fn p5_high_code() {
    let end = fresh().but(|c| {
        c.store(0, 0, 0x61).cursor(1, 0).mark(0, 0);
    });
    check(&fresh(), &[0xE1], &end, 0);
}

#[test]
fn p6_set_viewport() {
    let end = fresh().but(|c| {
        c.port.state.viewport = rectangle(10, 5, 12, 7);
        c.cursor(10, 5);
    });
    check(&fresh(), &[0x02, 0x2A, 0x25, 0x2C, 0x27], &end, 0);
}

#[test]
fn p7_one_column_is_ignored() {
    check_idle(&fresh(), &[0x02, 0x20, 0x20, 0x20, 0x21]);
}

#[test]
fn p8_clamped_to_the_screen() {
    let start = fresh().but(|c| {
        c.port.state.viewport = rectangle(10, 5, 12, 7);
        c.cursor(11, 6);
    });
    check(&start, &[0x02, 0x20, 0x20, 0x7F, 0x7F], &fresh(), 0);
    check(&fresh(), &[0x02, 0x20, 0x20, 0x7F, 0x7F], &fresh(), 0);
}

#[test]
fn p9_printing_at_bottom_right() {
    let start = fresh().but(|c| {
        c.cursor(79, 23);
    });
    let end = fresh().but(|c| {
        c.store(79, 22, 0x81).cursor(0, 23).mark(0, 23);
    });
    check(&start, &[0x41], &end, 0);
    check(&fresh(), &[0x1E, 0x6F, 0x37, 0x41], &end, 0);
}

#[test]
fn p10_backspace_at_top_left() {
    let end = fresh().but(|c| {
        c.cursor(79, 0).mark(0, 23);
    });
    check(&fresh(), &[0x08], &end, 0);
}

/// The viewport of P6, every line $81 $82 $83, blanks around it.
fn three_letters() -> Console {
    fresh().but(|c| {
        c.port.state.viewport = rectangle(10, 5, 12, 7);
        c.cursor(10, 5).rows([b"\x81\x82\x83", b"\x81\x82\x83", b"\x81\x82\x83"]);
    })
}

#[test]
fn p11_shift_left_by_one() {
    let end = three_letters().but(|c| {
        c.rows([b"\x82\x83\xA0", b"\x82\x83\xA0", b"\x82\x83\xA0"]).mark(5, 7);
    });
    check(&three_letters(), &[0x05, 0xFF], &end, 0);
}

#[test]
fn p12_shift_left_by_128() {
    let end = three_letters().but(|c| {
        c.rows([b"...", b"...", b"..."]).mark(5, 7);
    });
    assert_eq!(end.screen, fresh().screen);
    check(&three_letters(), &[0x05, 0x80], &end, 0);
}

#[test]
fn shift_and_its_zero_in_two_writes() {
    let mut console = fresh();
    console.store(5, 3, 0x42);
    let (status, port, bells) = write(console.port, &mut console.screen, &[0x05]);
    let waits = Port { waiting: 0x05, ..Port::fresh() };
    assert_eq!((status, port, bells), (0, waits, 0));
    // The $00 is the parameter, so the $43 after it is printed.
    let start = Console { port, screen: console.screen };
    let end = fresh().but(|c| {
        c.store(5, 3, 0x42).store(0, 0, 0x83).cursor(1, 0).mark(0, 0);
    });
    check(&start, &[0x00, 0x43], &end, 0);
}

#[test]
fn dle_of_223_spaces() {
    // 223 = 2 lines of 80 and 63 cells of the third.
    let start = fresh_in(rectangle(0, 0, 79, 23));
    let end = start.but(|c| {
        for column in 0..80 {
            c.store(column, 0, 0xA0).store(column, 1, 0xA0);
        }
        for column in 0..63 {
            c.store(column, 2, 0xA0);
        }
        c.cursor(63, 2).mark(0, 2);
    });
    check(&start, &[0x10, 0xFF], &end, 0);
}

#[test]
fn gotoxy_with_a_bad_column() {
    let start = fresh().but(|c| {
        c.cursor(5, 9);
    });
    let end = fresh().but(|c| {
        c.cursor(5, 1);
    });
    check(&start, &[0x1E, 0x00, 0x21], &end, 0);
}

#[test]
fn home_of_two_by_two() {
    let start = fresh_in(rectangle(10, 5, 11, 6));
    // A to D fill it; the D scrolls it; E lands on the bottom line.
    let end = start.but(|c| {
        c.store(10, 5, 0x83).store(11, 5, 0x84);
        c.store(10, 6, 0x85).store(11, 6, 0xA0).cursor(11, 6).mark(5, 6);
    });
    check(&start, b"ABCDE", &end, 0);
    // No viewport but home itself fits.
    check(&start, &[0x02, 0x20, 0x20, 0x7F, 0x7F], &start, 0);
    check_idle(&start, &[0x02, 0x2B, 0x25, 0x2C, 0x27]);
}

#[test]
fn slip_viewport_clamped_to_home() {
    let home = rectangle(10, 5, 30, 15);
    let start = fresh_in(home).but(|c| {
        c.port.state.viewport = rectangle(20, 8, 22, 10);
        c.cursor(21, 9);
    });
    // $02 for the whole screen gives home only.
    check(&start, &[0x02, 0x20, 0x20, 0x6F, 0x37], &fresh_in(home), 0);
    check(&start, &[0x02, 0x20, 0x20, 0x7F, 0x7F], &fresh_in(home), 0);
    // So does $01, and $04 with nothing saved.
    let pushed = fresh_in(home).but(|c| {
        c.port.has_saved = true;
        c.port.saved = State {
            viewport: rectangle(20, 8, 22, 10),
            cursor: Cursor { column: 21, line: 9 },
            ..State::default_in(home)
        };
    });
    check(&start, &[0x01], &pushed, 0);
    check(&start, &[0x04], &fresh_in(home), 0);
}

#[test]
fn slip_parameter_after_a_cut_is_no_code() {
    // $07 as a parameter rings no bell: a shift by 7 here.
    let start = fresh().but(|c| {
        c.store(0, 3, 0x42).store(75, 3, 0x43);
    });
    let end = fresh().but(|c| {
        c.store(7, 3, 0x42).mark(0, 23);
    });
    check(&start, &[0x05, 0x07], &end, 0);
    // Control codes inside $02 make it an ignored command, no more.
    check_idle(&start, &[0x02, 0x07, 0x0C, 0x41, 0x16]);
    // A $07 behind the last parameter is a code again.
    check(&start, &[0x05, 0x07, 0x07], &end, 1);
}

#[test]
fn slip_backspace_scrolls_and_goes_right() {
    let start = fresh().but(|c| {
        c.store(0, 0, 0x42).store(79, 22, 0x43).store(5, 23, 0x44);
    });
    let end = fresh().but(|c| {
        c.store(0, 1, 0x42).store(79, 23, 0x43).cursor(79, 0).mark(0, 23);
    });
    check(&start, &[0x08], &end, 0);
}

#[test]
fn slip_dle_spaces_in_inverse() {
    let end = fresh().but(|c| {
        c.store(0, 0, 0x20).store(1, 0, 0x20).store(2, 0, 0x20).cursor(3, 0).mark(0, 0);
        c.port.state.inverse = true;
    });
    check(&fresh(), &[0x0F, 0x10, 0x23], &end, 0);
    let end = end.but(|c| c.port.state.mousetext = true);
    check(&fresh(), &[0x0F, 0x1B, 0x10, 0x23], &end, 0);
}
