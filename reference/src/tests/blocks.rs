//! Blocks handed out and put back, and views of one row.

use super::{lines, patterned, small, Console};
use crate::block::{block_restore, block_return, row_view};
use crate::port::{cell, Port};

#[test]
fn block_of_the_small_viewport() {
    let console = small();
    let mut block = [0x55; 14];
    let answer = block_return(console.port, &console.screen, &mut block);
    assert_eq!(answer, (0, console.port, 11));
    assert_eq!(&block, b"\x03\x03abcdefghi\x55\x55\x55");
}

#[test]
fn block_of_the_whole_screen() {
    let mut block = vec![0x55; 1922];
    let answer = block_return(Port::fresh(), &patterned(), &mut block);
    assert_eq!(answer, (0, Port::fresh(), 1922));
    assert_eq!(block[0..2], [80, 24]);
    assert_eq!(block[2..], patterned()[..]);
}

#[test]
fn restore_writes_the_cells_and_marks_their_lines() {
    let mut screen = small().screen;
    let answer = block_restore(small().port, &mut screen, b"\x03\x03jklmnopqr");
    let end = small().but(|c| {
        c.rows([b"jkl", b"mno", b"pqr"]).mark(5, 7);
    });
    assert_eq!(answer, (0, end.port, 0));
    assert_eq!(screen, end.screen);
}

#[test]
fn handed_out_and_put_back_changes_nothing_but_the_marks() {
    let waiting = small().but(|c| {
        c.port.waiting = 0x02;
        c.port.gathered = 1;
        c.port.parameters[0] = 0x07;
    });
    let whole = Console { port: Port::fresh(), screen: patterned() };
    for (start, size, marks) in
        [(small(), 11, lines(5, 7)), (waiting, 11, lines(5, 7)), (whole, 1922, lines(0, 23))]
    {
        let mut screen = start.screen.clone();
        let mut block = vec![0; size];
        let answer = block_return(start.port, &screen, &mut block);
        assert_eq!(answer, (0, start.port, size));
        let answer = block_restore(start.port, &mut screen, &block);
        assert_eq!(answer, (0, Port { marks, ..start.port }, 0));
        assert_eq!(screen, start.screen);
    }
}

#[test]
fn rows_are_parts_of_the_lent_screen() {
    let console = small();
    for (row, text) in [b"abc", b"def", b"ghi"].iter().enumerate() {
        let view = row_view(&console.port, &console.screen, row);
        assert_eq!(view, *text);
        let start = cell(10, 5 + row as u8);
        assert_eq!(view.as_ptr(), console.screen[start..].as_ptr());
    }
    let screen = patterned();
    for row in 0..24 {
        let view = row_view(&Port::fresh(), &screen, row);
        assert_eq!(view, &screen[row * 80..row * 80 + 80]);
    }
}

#[test]
fn rows_that_are_not_there_are_empty() {
    let console = small();
    for row in [3, 4, 18, 255, 256, 259, usize::MAX] {
        assert!(row_view(&console.port, &console.screen, row).is_empty());
    }
    assert!(row_view(&Port::fresh(), &console.screen, 24).is_empty());
    for size in [0, 1919, 1921] {
        assert!(row_view(&console.port, &vec![0x41; size], 0).is_empty());
    }
    let invalid = console.but(|c| {
        c.cursor(9, 6);
    });
    assert!(row_view(&invalid.port, &invalid.screen, 0).is_empty());
}
