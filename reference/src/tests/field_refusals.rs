//! The input field's statuses 11, 12, 13 and 19: exactly when, in which
//! order, nothing changed.

use crate::field::{keys, start, text, Answer, Ending, State};

/// What a call is given, the keys apart.
#[derive(Clone, Copy, Debug)]
struct Lent {
    width: usize,
    maximum: usize,
    default: usize,
    buffer: usize,
    state: State,
}

/// A field of width 3 and maximum 4 that nothing speaks against, each
/// number at its edge.
const GOOD: Lent =
    Lent { width: 3, maximum: 4, default: 4, buffer: 4, state: State { length: 4, cursor: 3 } };

/// A width or maximum that is out of range.
const OUT_OF_RANGE: [usize; 5] = [0, 255, 256, 1 << 32, usize::MAX];

fn default_of(length: usize) -> Vec<u8> {
    vec![0xAA; length]
}

fn buffer_of(length: usize) -> Vec<u8> {
    vec![0x55; length]
}

/// Calls all three and expects the refusal from keys and text, and from the
/// start its own: 0 where 19 is the only fault.
fn check_refused(lent: Lent, status: u8) {
    let Lent { width, maximum, state, .. } = lent;
    let default = default_of(lent.default);
    let mut buffer = buffer_of(lent.buffer);
    for stream in [&b""[..], b"A\x00\x08\r", b"\x1B"] {
        let answer = keys(width, maximum, &default, &mut buffer, state, stream);
        let wanted = Answer { status, state, read: 0, beeps: 0, ending: Ending::None };
        assert_eq!(answer, wanted, "{:?}", lent);
        assert_eq!(buffer, buffer_of(lent.buffer), "{:?}", lent);
    }
    for ending in [Ending::None, Ending::Return, Ending::Escape] {
        let stretch = text(width, maximum, &default, &buffer, state, ending);
        assert!(stretch.is_empty(), "{:?}", lent);
    }
    if status != 19 {
        let started = start(width, maximum, &default, &mut buffer);
        assert_eq!(started, (status, State { length: 0, cursor: 0 }), "{:?}", lent);
        assert_eq!(buffer, buffer_of(lent.buffer), "{:?}", lent);
    }
}

/// Calls all three and expects no refusal.
fn check_served(lent: Lent) {
    let Lent { width, maximum, state, .. } = lent;
    let default = default_of(lent.default);
    let mut buffer = buffer_of(lent.buffer);
    let answer = keys(width, maximum, &default, &mut buffer, state, b"\x00\r");
    let wanted = Answer { status: 0, state, read: 2, beeps: 1, ending: Ending::Return };
    assert_eq!(answer, wanted, "{:?}", lent);
    let stretch = text(width, maximum, &default, &buffer, state, Ending::Return);
    assert_eq!(stretch, buffer_of(state.length), "{:?}", lent);
    let stretch = text(width, maximum, &default, &buffer, state, Ending::Escape);
    assert_eq!(stretch, default, "{:?}", lent);
    assert_eq!(start(width, maximum, &default, &mut buffer).0, 0, "{:?}", lent);
}

#[test]
fn width_out_of_range_is_11() {
    for width in OUT_OF_RANGE {
        check_refused(Lent { width, ..GOOD }, 11);
        // Also with a state that no width could speak against.
        check_refused(Lent { width, state: State { length: 0, cursor: 0 }, ..GOOD }, 11);
    }
}

#[test]
fn maximum_out_of_range_is_11() {
    for maximum in OUT_OF_RANGE {
        check_refused(Lent { maximum, ..GOOD }, 11);
        // Also where buffer, default and state fit the maximum.
        let state = State { length: 0, cursor: 0 };
        check_refused(Lent { maximum, default: 0, buffer: 300, state, ..GOOD }, 11);
        check_refused(Lent { maximum, default: 0, buffer: 0, state, ..GOOD }, 11);
        for width in OUT_OF_RANGE {
            check_refused(Lent { width, maximum, ..GOOD }, 11);
        }
    }
}

#[test]
fn buffer_shorter_than_the_maximum_is_12() {
    for buffer in 0..4 {
        check_refused(Lent { buffer, ..GOOD }, 12);
        // Also where the buffer would hold the texts.
        let state = State { length: 0, cursor: 0 };
        check_refused(Lent { buffer, default: 0, state, ..GOOD }, 12);
    }
    check_refused(Lent { maximum: 254, buffer: 253, ..GOOD }, 12);
}

#[test]
fn default_longer_than_the_maximum_is_13() {
    for default in [5, 6, 254, 255, 300] {
        check_refused(Lent { default, ..GOOD }, 13);
        // Also where the buffer or the width would hold the default.
        check_refused(Lent { default, width: 254, buffer: 400, ..GOOD }, 13);
    }
}

#[test]
fn length_past_the_maximum_is_19() {
    for length in [5, 6, 254, 255, usize::MAX] {
        for cursor in [0, 3] {
            check_refused(Lent { state: State { length, cursor }, ..GOOD }, 19);
            // Also where the buffer would hold the text.
            check_refused(Lent { buffer: 400, state: State { length, cursor }, ..GOOD }, 19);
        }
    }
}

#[test]
fn cursor_past_the_length_is_19() {
    for (length, cursor) in [(0, 1), (1, 2), (2, 3), (0, usize::MAX), (4, usize::MAX)] {
        check_refused(Lent { state: State { length, cursor }, ..GOOD }, 19);
        check_refused(Lent { width: 254, state: State { length, cursor }, ..GOOD }, 19);
    }
}

#[test]
fn cursor_past_the_width_is_19() {
    check_refused(Lent { state: State { length: 4, cursor: 4 }, ..GOOD }, 19);
    for cursor in 2..=4 {
        check_refused(Lent { width: 1, state: State { length: 4, cursor }, ..GOOD }, 19);
    }
}

#[test]
fn the_first_that_applies_is_given() {
    for faults in 1..16 {
        let mut lent = GOOD;
        let mut status = 0;
        // From the last to the first, so that the first one is left.
        if faults & 8 != 0 {
            lent.state = State { length: 5, cursor: 6 };
            status = 19;
        }
        if faults & 4 != 0 {
            lent.default = 5;
            status = 13;
        }
        if faults & 2 != 0 {
            lent.buffer = 3;
            status = 12;
        }
        if faults & 1 != 0 {
            lent.width = 0;
            status = 11;
        }
        check_refused(lent, status);
        if faults & 1 != 0 {
            check_refused(Lent { width: 3, maximum: 255, ..lent }, 11);
            check_refused(Lent { width: 3, maximum: usize::MAX, ..lent }, 11);
        }
    }
}

#[test]
fn nothing_is_refused_at_the_edges() {
    check_served(GOOD);
    check_served(Lent { buffer: 5, ..GOOD });
    check_served(Lent { default: 0, ..GOOD });
    check_served(Lent { width: 254, state: State { length: 4, cursor: 4 }, ..GOOD });
    check_served(Lent { state: State { length: 0, cursor: 0 }, ..GOOD });
    check_served(Lent { width: 1, state: State { length: 4, cursor: 1 }, ..GOOD });
    let state = State { length: 1, cursor: 1 };
    check_served(Lent { width: 1, maximum: 1, default: 1, buffer: 1, state });
    let state = State { length: 254, cursor: 254 };
    check_served(Lent { width: 254, maximum: 254, default: 254, buffer: 254, state });
    check_served(Lent { width: 254, maximum: 254, default: 254, buffer: 1000, state });
}

#[test]
fn a_start_asks_for_no_state() {
    // A start that a width below the default's length does not hinder.
    let mut buffer = buffer_of(4);
    let started = start(1, 4, &default_of(4), &mut buffer);
    assert_eq!(started, (0, State { length: 4, cursor: 1 }));
    assert_eq!(buffer, default_of(4));
}

#[test]
fn keys_can_go_on_after_a_refusal() {
    let mut buffer = b"abc.".to_vec();
    let state = State { length: 3, cursor: 3 };
    let refused = keys(4, 5, b"", &mut buffer, state, b"d\r");
    assert_eq!((refused.status, refused.state), (12, state));
    let answer = keys(4, 4, b"", &mut buffer, refused.state, b"d\r");
    let state = State { length: 4, cursor: 4 };
    assert_eq!(answer, Answer { status: 0, state, read: 2, beeps: 0, ending: Ending::Return });
    assert_eq!(buffer, b"abcd");
}
