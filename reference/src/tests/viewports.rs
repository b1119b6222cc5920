//! $02, $01 and $04: the viewport and the saved port.

use super::{check, check_idle, fresh_in, rectangle, small, Console};
use crate::port::{Cursor, Flags, Rectangle, State};

const HOME: Rectangle = Rectangle { left: 10, top: 5, right: 30, bottom: 15 };

/// The small console in HOME, its flags and modes off their defaults,
/// with a saved port, so that anything touched shows.
fn unusual() -> Console {
    small().but(|c| {
        c.port.home = HOME;
        c.port.state.flags.lf = false;
        c.port.state.flags.dle = false;
        c.port.state.inverse = true;
        c.port.state.mousetext = true;
        c.port.has_saved = true;
        c.port.saved = earlier();
    })
}

/// The port that `unusual` has saved.
fn earlier() -> State {
    State {
        viewport: rectangle(20, 8, 25, 9),
        cursor: Cursor { column: 22, line: 9 },
        flags: Flags { dle: true, scroll: false, wrap: true, lf: false, advance: true },
        inverse: false,
        mousetext: true,
    }
}

/// HOME's default state, spelled out.
fn default_state() -> State {
    State {
        viewport: rectangle(10, 5, 30, 15),
        cursor: Cursor { column: 10, line: 5 },
        flags: Flags { dle: true, scroll: true, wrap: true, lf: true, advance: true },
        inverse: false,
        mousetext: false,
    }
}

/// $02 with these four parameters gives this viewport.
fn check_set(parameters: [u8; 4], viewport: Rectangle) {
    let [left, top, right, bottom] = parameters;
    let end = unusual().but(|c| {
        c.port.state.viewport = viewport;
        c.cursor(viewport.left, viewport.top);
    });
    check(&unusual(), &[0x02, left, top, right, bottom], &end, 0);
}

fn check_ignored(parameters: [u8; 4]) {
    let [left, top, right, bottom] = parameters;
    check_idle(&unusual(), &[0x02, left, top, right, bottom]);
}

#[test]
fn set_viewport_inside_home() {
    // (20,8,25,12), then the smallest size, then home itself.
    check_set([0x34, 0x28, 0x39, 0x2C], rectangle(20, 8, 25, 12));
    check_set([0x34, 0x28, 0x35, 0x29], rectangle(20, 8, 21, 9));
    check_set([0x2A, 0x25, 0x3E, 0x2F], rectangle(10, 5, 30, 15));
}

#[test]
fn set_viewport_clamped_on_each_side() {
    check_set([0x29, 0x28, 0x39, 0x2C], rectangle(10, 8, 25, 12));
    check_set([0x34, 0x24, 0x39, 0x2C], rectangle(20, 5, 25, 12));
    check_set([0x34, 0x28, 0x3F, 0x2C], rectangle(20, 8, 30, 12));
    check_set([0x34, 0x28, 0x39, 0x30], rectangle(20, 8, 25, 15));
    check_set([0x20, 0x20, 0x7F, 0x7F], rectangle(10, 5, 30, 15));
}

#[test]
fn set_viewport_with_a_parameter_out_of_range() {
    for place in 0..4 {
        for bad in [0x00, 0x1F, 0x80, 0xFF] {
            let mut parameters = [0x34, 0x28, 0x39, 0x2C];
            parameters[place] = bad;
            check_ignored(parameters);
        }
    }
}

#[test]
fn set_viewport_crossing() {
    check_ignored([0x39, 0x28, 0x34, 0x2C]);
    check_ignored([0x34, 0x28, 0x34, 0x2C]);
    check_ignored([0x34, 0x2C, 0x39, 0x28]);
    check_ignored([0x34, 0x28, 0x39, 0x28]);
}

#[test]
fn set_viewport_crossing_after_the_clamp() {
    // Both columns right of home, both left of it; then the lines.
    check_ignored([0x48, 0x28, 0x52, 0x2C]);
    check_ignored([0x20, 0x28, 0x25, 0x2C]);
    check_ignored([0x34, 0x30, 0x39, 0x37]);
    check_ignored([0x34, 0x20, 0x39, 0x23]);
    // One of them on home's edge already.
    check_ignored([0x3E, 0x28, 0x7F, 0x2C]);
    check_ignored([0x34, 0x20, 0x39, 0x25]);
}

#[test]
fn save_replaces_an_earlier_save() {
    let start = unusual();
    let end = start.but(|c| {
        c.port.saved = start.port.state;
        c.port.state = default_state();
    });
    check(&start, &[0x01], &end, 0);
    // A second save at once: the default state is what is kept.
    let again = end.but(|c| c.port.saved = default_state());
    check(&start, &[0x01, 0x01], &again, 0);
    check(&start, &[0x01, 0x01, 0x04], &again, 0);
}

#[test]
fn save_from_an_unsaved_port() {
    let start = fresh_in(HOME).but(|c| {
        c.port.state = earlier();
    });
    let end = fresh_in(HOME).but(|c| {
        c.port.has_saved = true;
        c.port.saved = earlier();
    });
    check(&start, &[0x01], &end, 0);
}

#[test]
fn restore_takes_the_save_and_keeps_it() {
    let end = unusual().but(|c| c.port.state = earlier());
    check(&unusual(), &[0x04], &end, 0);
    // Changes in between are lost, the save is still there.
    check(&unusual(), &[0x04, 0x0F, 0x19, 0x04], &end, 0);
}

#[test]
fn restore_without_a_save_gives_the_default_state() {
    let start = fresh_in(HOME).but(|c| c.port.state = earlier());
    check(&start, &[0x04], &fresh_in(HOME), 0);
    let whole = small().but(|c| c.port.state.inverse = true);
    let end = whole.but(|c| {
        c.port.state.viewport = rectangle(0, 0, 79, 23);
        c.port.state.inverse = false;
        c.cursor(0, 0);
    });
    check(&whole, &[0x04], &end, 0);
}

#[test]
fn save_change_and_restore() {
    // $01, a viewport of its own, flags, inverse, a letter, then $04.
    let start = fresh_in(HOME).but(|c| c.port.state = earlier());
    let bytes = [0x01, 0x02, 0x34, 0x28, 0x39, 0x2C, 0x15, 0x00, 0x0F, 0x41, 0x04];
    let end = start.but(|c| {
        c.store(20, 8, 0x01).mark(8, 8);
        c.port.has_saved = true;
        c.port.saved = earlier();
    });
    check(&start, &bytes, &end, 0);
}
