//! Taking the marks of a plain port, and the marks in blocks and row views.

use super::{fresh, lines, patterned, rectangle, small};
use crate::block::{block_restore, block_return, row_view};
use crate::console::{take_marks, write};
use crate::port::Port;

#[test]
fn fresh_port_has_no_mark() {
    assert_eq!(Port::fresh().marks, 0);
    assert_eq!(take_marks(Port::fresh()), (0, Port::fresh(), 0, 0));
}

#[test]
fn taking_returns_the_marks_and_clears_them() {
    for line in 0..24 {
        let marked = Port { marks: 1 << line, ..Port::fresh() };
        assert_eq!(take_marks(marked), (0, Port::fresh(), 1 << line, 1));
        let marked = Port { marks: lines(0, line), ..Port::fresh() };
        let wanted = (0, Port::fresh(), lines(0, line), line as usize + 1);
        assert_eq!(take_marks(marked), wanted);
    }
    let marked = Port { marks: 0x800401, ..Port::fresh() };
    assert_eq!(take_marks(marked), (0, Port::fresh(), 0x800401, 3));
    // Line 0 is the lowest bit, line 23 the highest.
    let start = fresh().but(|c| {
        c.cursor(0, 23);
    });
    let (_, port, _) = write(start.port, &mut patterned(), &[0x1A, 0x19, 0x1A]);
    assert_eq!(take_marks(port), (0, Port { marks: 0, ..port }, 0x800001, 2));
}

#[test]
fn taking_changes_no_other_field() {
    // In the middle of a command, with a save and with unusual flags.
    let start = small().but(|c| {
        c.port.has_saved = true;
        c.port.saved = Port::fresh().state;
        c.port.state.flags.lf = false;
        c.port.state.inverse = true;
        c.port.state.mousetext = true;
        c.port.waiting = 0x02;
        c.port.gathered = 2;
        c.port.parameters = [0x2A, 0x25, 0, 0];
    });
    let marked = Port { marks: lines(5, 6), ..start.port };
    assert_eq!(take_marks(marked), (0, start.port, lines(5, 6), 2));
}

#[test]
fn marks_since_the_last_taking() {
    let start = small().but(|c| {
        c.cursor(11, 5);
    });
    let mut screen = small().screen;
    let (_, port, _) = write(start.port, &mut screen, b"A\x0AB");
    let (status, port, marks, count) = take_marks(port);
    assert_eq!((status, port.marks, marks, count), (0, 0, lines(5, 6), 2));
    let (_, port, _) = write(port, &mut screen, b"C");
    let (_, port, marks, count) = take_marks(port);
    assert_eq!((marks, count), (lines(7, 7), 1));
    assert_eq!(take_marks(port), (0, port, 0, 0));
}

#[test]
fn taking_from_an_invalid_port_is_2() {
    let outside = Port { marks: lines(6, 6) | 1 << 24, ..small().port };
    let cursor = small().but(|c| {
        c.cursor(9, 6).mark(6, 7);
    });
    let home = Port { marks: lines(0, 0), ..Port::fresh_in(rectangle(0, 0, 80, 23)) };
    for port in [outside, cursor.port, home] {
        assert_eq!(take_marks(port), (2, port, 0, 0));
    }
}

#[test]
fn blocks_and_rows() {
    let start = small().but(|c| {
        c.mark(6, 6).mark(20, 20);
    });
    let mut block = [0; 11];
    assert_eq!(block_return(start.port, &start.screen, &mut block), (0, start.port, 11));
    // Put straight back: equal bytes, and the viewport's lines are marked.
    let mut screen = start.screen.clone();
    let end = Port { marks: lines(5, 7) | lines(20, 20), ..start.port };
    assert_eq!(block_restore(start.port, &mut screen, &block), (0, end, 0));
    assert_eq!(screen, start.screen);
    // A refused restore marks nothing.
    block[0] = 4;
    assert_eq!(block_restore(start.port, &mut screen, &block), (10, start.port, 0));
    // A row view needs marks inside home, as every call does.
    assert_eq!(row_view(&start.port, &screen, 1), b"def");
    let outside = Port { marks: 1 << 31, ..start.port };
    assert!(row_view(&outside, &screen, 1).is_empty());
}
