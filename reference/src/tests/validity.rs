//! Each clause of a port's validity, broken once.

use super::{lines, rectangle, small};
use crate::port::{Cursor, Flags, Port, Rectangle, State};

/// A valid port whose home leaves room on every side of the viewport.
fn port() -> Port {
    let mut port = small().port;
    port.home = rectangle(8, 3, 14, 9);
    port
}

fn with_save() -> Port {
    let mut port = port();
    port.has_saved = true;
    port.saved = port.state;
    port
}

fn with_home(home: Rectangle) -> Port {
    Port { home, ..port() }
}

fn with_viewport(viewport: Rectangle) -> Port {
    let mut port = port();
    port.state.viewport = viewport;
    port
}

fn with_cursor(column: u8, line: u8) -> Port {
    let mut port = port();
    port.state.cursor = Cursor { column, line };
    port
}

#[test]
fn valid_ports() {
    assert!(Port::fresh().valid());
    assert!(Port::fresh_in(rectangle(78, 22, 79, 23)).valid());
    assert!(port().valid());
    assert!(with_save().valid());
    for (column, line) in [(10, 5), (12, 5), (10, 7), (12, 7)] {
        assert!(with_cursor(column, line).valid());
    }
    assert!(with_viewport(rectangle(8, 3, 14, 9)).valid());
    assert!(with_viewport(rectangle(11, 6, 12, 7)).valid());
}

#[test]
fn home_is_legal() {
    // Past the screen, with the viewport still inside.
    assert!(!with_home(rectangle(0, 0, 80, 23)).valid());
    assert!(!with_home(rectangle(0, 0, 79, 24)).valid());
    assert!(!with_home(rectangle(0, 0, 255, 255)).valid());
    // One column, one line, crossed.
    assert!(!Port::fresh_in(rectangle(5, 5, 5, 6)).valid());
    assert!(!Port::fresh_in(rectangle(5, 5, 6, 5)).valid());
    assert!(!Port::fresh_in(rectangle(6, 5, 5, 6)).valid());
    assert!(!Port::fresh_in(rectangle(5, 6, 6, 5)).valid());
}

#[test]
fn viewport_is_legal() {
    assert!(!with_viewport(rectangle(11, 5, 11, 7)).valid());
    assert!(!with_viewport(rectangle(10, 6, 12, 6)).valid());
    assert!(!with_viewport(rectangle(12, 5, 10, 7)).valid());
    assert!(!with_viewport(rectangle(10, 7, 12, 5)).valid());
}

#[test]
fn viewport_is_inside_home() {
    assert!(!with_viewport(rectangle(7, 5, 12, 7)).valid());
    assert!(!with_viewport(rectangle(10, 2, 12, 7)).valid());
    assert!(!with_viewport(rectangle(10, 5, 15, 7)).valid());
    assert!(!with_viewport(rectangle(10, 5, 12, 10)).valid());
}

#[test]
fn cursor_lies_in_the_viewport() {
    assert!(!with_cursor(9, 6).valid());
    assert!(!with_cursor(13, 6).valid());
    assert!(!with_cursor(11, 4).valid());
    assert!(!with_cursor(11, 8).valid());
    assert!(!with_cursor(255, 255).valid());
}

#[test]
fn saved_port_obeys_the_same() {
    let viewports = [
        rectangle(11, 5, 11, 7),
        rectangle(10, 6, 12, 6),
        rectangle(7, 5, 12, 7),
        rectangle(10, 2, 12, 7),
        rectangle(10, 5, 15, 7),
        rectangle(10, 5, 12, 10),
    ];
    for viewport in viewports {
        let mut port = with_save();
        port.saved.viewport = viewport;
        assert!(!port.valid(), "{:?}", viewport);
    }
    for (column, line) in [(9, 6), (13, 6), (11, 4), (11, 8)] {
        let mut port = with_save();
        port.saved.cursor = Cursor { column, line };
        assert!(!port.valid(), "({},{})", column, line);
    }
    // All 0 is no valid saved port.
    assert!(!Port { has_saved: true, ..port() }.valid());
}

#[test]
fn nothing_saved_holds_zero() {
    let none = port().saved;
    let viewport = rectangle(0, 0, 0, 0);
    let flags = Flags { dle: false, scroll: false, wrap: false, lf: false, advance: false };
    let changed = [
        State { viewport: Rectangle { left: 1, ..viewport }, ..none },
        State { viewport: Rectangle { top: 1, ..viewport }, ..none },
        State { viewport: Rectangle { right: 1, ..viewport }, ..none },
        State { viewport: Rectangle { bottom: 1, ..viewport }, ..none },
        State { cursor: Cursor { column: 1, line: 0 }, ..none },
        State { cursor: Cursor { column: 0, line: 1 }, ..none },
        State { flags: Flags { dle: true, ..flags }, ..none },
        State { flags: Flags { scroll: true, ..flags }, ..none },
        State { flags: Flags { wrap: true, ..flags }, ..none },
        State { flags: Flags { lf: true, ..flags }, ..none },
        State { flags: Flags { advance: true, ..flags }, ..none },
        State { inverse: true, ..none },
        State { mousetext: true, ..none },
        // A state that would be valid if it were marked as saved.
        port().state,
    ];
    for saved in changed {
        assert!(!Port { saved, ..port() }.valid(), "{:?}", saved);
    }
}

#[test]
fn waiting_code_is_none_or_one_of_seven() {
    for waiting in 0..=255 {
        let allowed = [0x00, 0x02, 0x05, 0x06, 0x10, 0x14, 0x15, 0x1E].contains(&waiting);
        assert_eq!(Port { waiting, ..port() }.valid(), allowed, "code {:02X}", waiting);
    }
}

#[test]
fn fewer_are_gathered_than_needed() {
    let needs =
        [(0x00, 1), (0x02, 4), (0x05, 1), (0x06, 1), (0x10, 1), (0x14, 1), (0x15, 1), (0x1E, 2)];
    for (waiting, needed) in needs {
        for gathered in 0..=255 {
            let port = Port { waiting, gathered, ..port() };
            assert_eq!(port.valid(), gathered < needed, "code {:02X}, {}", waiting, gathered);
        }
    }
}

#[test]
fn places_not_gathered_hold_zero() {
    let cases = [(0x00, 0), (0x05, 0), (0x15, 0), (0x1E, 0), (0x1E, 1), (0x02, 0), (0x02, 3)];
    for (waiting, gathered) in cases {
        for place in 0..4 {
            let mut port = Port { waiting, gathered, ..port() };
            port.parameters[place] = 7;
            assert_eq!(port.valid(), place < gathered as usize, "{:02X} {}", waiting, place);
        }
    }
}

#[test]
fn marks_are_on_lines_of_home() {
    // Home has lines 3 to 9, the viewport 5 to 7; the last eight bits are
    // no screen line's.
    for bit in 0..32 {
        let port = Port { marks: 1 << bit, ..port() };
        assert_eq!(port.valid(), (3..=9).contains(&bit), "bit {}", bit);
        // A mark inside home does not make up for one outside.
        let port = Port { marks: 1 << bit | 1 << 6, ..port };
        assert_eq!(port.valid(), (3..=9).contains(&bit), "bit {} and 6", bit);
        let whole = Port { marks: 1 << bit, ..Port::fresh() };
        assert_eq!(whole.valid(), bit < 24, "bit {}, whole screen", bit);
    }
    assert!(Port { marks: lines(3, 9), ..port() }.valid());
    assert!(Port { marks: lines(0, 23), ..Port::fresh() }.valid());
    assert!(!Port { marks: u32::MAX, ..Port::fresh() }.valid());
}

#[test]
fn marks_do_not_mend_a_home_that_is_not_legal() {
    for home in [rectangle(0, 0, 79, 24), rectangle(0, 0, 255, 255), rectangle(5, 200, 6, 201)] {
        for marks in [0, 1, 1 << 24, u32::MAX] {
            assert!(!Port { marks, ..Port::fresh_in(home) }.valid(), "{:?}, {}", home, marks);
        }
    }
}
