//! Placing and moving the cursor. Edges are the viewport's.

use crate::cells::{scroll_down, scroll_up};
use crate::port::Port;

pub fn cursor_to_top_left(port: &mut Port) {
    port.state.cursor.column = port.state.viewport.left;
    port.state.cursor.line = port.state.viewport.top;
}

/// $14: a column of the viewport + 32. Below 32 it is ignored, past the
/// right edge it means the right edge.
pub fn set_column(port: &mut Port, parameter: u8) {
    let viewport = port.state.viewport;
    if parameter < 32 {
        return;
    }
    if parameter - 32 > viewport.right - viewport.left {
        port.state.cursor.column = viewport.right;
    } else {
        port.state.cursor.column = viewport.left + (parameter - 32);
    }
}

/// $06: the same for a line of the viewport.
pub fn set_line(port: &mut Port, parameter: u8) {
    let viewport = port.state.viewport;
    if parameter < 32 {
        return;
    }
    if parameter - 32 > viewport.bottom - viewport.top {
        port.state.cursor.line = viewport.bottom;
    } else {
        port.state.cursor.line = viewport.top + (parameter - 32);
    }
}

/// $08. At the left edge it moves only with wrap, and on the top line
/// only with scroll as well.
pub fn left_one(port: &mut Port, screen: &mut [u8]) {
    let viewport = port.state.viewport;
    if port.state.cursor.column > viewport.left {
        port.state.cursor.column -= 1;
    } else if port.state.flags.wrap {
        if port.state.cursor.line > viewport.top {
            port.state.cursor.column = viewport.right;
            port.state.cursor.line -= 1;
        } else if port.state.flags.scroll {
            scroll_down(port, screen);
            port.state.cursor.column = viewport.right;
        }
    }
}

/// $1C. At the right edge it moves only with wrap, and on the bottom
/// line only with scroll as well.
pub fn right_one(port: &mut Port, screen: &mut [u8]) {
    let viewport = port.state.viewport;
    if port.state.cursor.column < viewport.right {
        port.state.cursor.column += 1;
    } else if port.state.flags.wrap {
        if port.state.cursor.line < viewport.bottom {
            port.state.cursor.column = viewport.left;
            port.state.cursor.line += 1;
        } else if port.state.flags.scroll {
            scroll_up(port, screen);
            port.state.cursor.column = viewport.left;
        }
    }
}

/// $0A. On the bottom line the text scrolls up under the cursor, if scroll.
pub fn down_one(port: &mut Port, screen: &mut [u8]) {
    if port.state.cursor.line < port.state.viewport.bottom {
        port.state.cursor.line += 1;
    } else if port.state.flags.scroll {
        scroll_up(port, screen);
    }
}

/// $1F. On the top line the text scrolls down under the cursor, if scroll.
pub fn up_one(port: &mut Port, screen: &mut [u8]) {
    if port.state.cursor.line > port.state.viewport.top {
        port.state.cursor.line -= 1;
    } else if port.state.flags.scroll {
        scroll_down(port, screen);
    }
}
