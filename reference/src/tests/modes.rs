//! The bell, the modes, the flags, DLE spaces and waiting parameters.

use super::{check, check_idle, fresh_in, rectangle, small, Console};
use crate::port::{Flags, Port};

fn at(column: u8, line: u8) -> Console {
    small().but(|c| {
        c.cursor(column, line);
    })
}

#[test]
fn bells_are_counted_as_commands_only() {
    check(&small(), &[0x07], &small(), 1);
    check(&small(), &[0x07, 0x00, 0x07, 0x07], &small(), 3);
    check_idle(&small(), &[0x06, 0x07]);
    check_idle(&small(), &[0x10, 0x07]);
    check_idle(&small(), &[0x02, 0x07, 0x07, 0x07, 0x07]);
}

#[test]
fn modes() {
    let with = |inverse: bool, mousetext: bool| {
        small().but(|c| {
            c.port.state.inverse = inverse;
            c.port.state.mousetext = mousetext;
        })
    };
    for other in [false, true] {
        for before in [false, true] {
            check(&with(before, other), &[0x0E], &with(false, other), 0);
            check(&with(before, other), &[0x0F], &with(true, other), 0);
            check(&with(other, before), &[0x1B], &with(other, true), 0);
            check(&with(other, before), &[0x18], &with(other, false), 0);
        }
    }
}

#[test]
fn movement_flags() {
    let none = Flags { dle: false, scroll: false, wrap: false, lf: false, advance: false };
    let all = Flags { dle: true, scroll: true, wrap: true, lf: true, advance: true };
    let cases = [
        (0x00, none),
        (0x10, Flags { dle: true, ..none }),
        (0x08, Flags { scroll: true, ..none }),
        (0x04, Flags { wrap: true, ..none }),
        (0x02, Flags { lf: true, ..none }),
        (0x01, Flags { advance: true, ..none }),
        (0x1F, all),
        // The top three bits are ignored.
        (0xE0, none),
        (0xFF, all),
        (0xE8, Flags { scroll: true, ..none }),
    ];
    for (parameter, flags) in cases {
        for before in [none, all] {
            let start = small().but(|c| c.port.state.flags = before);
            let end = small().but(|c| c.port.state.flags = flags);
            check(&start, &[0x15, parameter], &end, 0);
        }
    }
}

#[test]
fn dle_spaces() {
    let end = at(12, 6).but(|c| {
        c.rows([b"abc", b".\xA0f", b"ghi"]).mark(6, 6);
    });
    check(&at(10, 6), &[0x10, 0x22], &end, 0);
    for none in [0x00, 0x07, 0x1F, 0x20] {
        check_idle(&small(), &[0x10, none]);
    }
    // Wrapping and scrolling as printing does: 4 spaces from (11,7).
    let end = at(12, 7).but(|c| {
        c.rows([b"def", b"g..", b"..."]).mark(5, 7);
    });
    check(&at(11, 7), &[0x10, 0x24], &end, 0);
}

#[test]
fn dle_without_its_flag_or_without_advance() {
    let off = at(10, 6).but(|c| c.port.state.flags.dle = false);
    check_idle(&off, &[0x10, 0x25]);
    check_idle(&off, &[0x10, 0x07]);
    // Its byte is dropped, the one after it is not.
    let end = off.but(|c| {
        c.store(10, 6, 0x82).cursor(11, 6).mark(6, 6);
    });
    check(&off, &[0x10, 0x41, 0x42], &end, 0);
    let still = at(10, 6).but(|c| c.port.state.flags.advance = false);
    let end = still.but(|c| {
        c.rows([b"abc", b".ef", b"ghi"]).mark(6, 6);
    });
    check(&still, &[0x10, 0x25], &end, 0);
}

#[test]
fn waiting_parameters_are_kept() {
    let start = fresh_in(rectangle(0, 0, 79, 23));
    let waits = |waiting: u8, gathered: u8, parameters: [u8; 4]| {
        start.but(|c| {
            c.port = Port { waiting, gathered, parameters, ..c.port };
        })
    };
    check(&start, &[0x02], &waits(0x02, 0, [0, 0, 0, 0]), 0);
    check(&start, &[0x02, 0x2A], &waits(0x02, 1, [0x2A, 0, 0, 0]), 0);
    check(&start, &[0x02, 0x2A, 0x07], &waits(0x02, 2, [0x2A, 0x07, 0, 0]), 0);
    let three = waits(0x02, 3, [0x2A, 0x07, 0xFF, 0]);
    check(&start, &[0x02, 0x2A, 0x07, 0xFF], &three, 0);
    check(&start, &[0x1E, 0x1E], &waits(0x1E, 1, [0x1E, 0, 0, 0]), 0);
    for code in [0x05, 0x06, 0x10, 0x14, 0x15] {
        check(&start, &[code], &waits(code, 0, [0, 0, 0, 0]), 0);
    }
}
