//! The screen's dimensions, the port, and which ports are valid (paper
//! 01's 'sound').
//!
//! Every field is a plain number or truth value, so a host can hand in
//! an invalid port as well; `Port::valid` tells the two apart.

use crate::marks;

/// 80 columns by 24 lines, one byte a cell.
pub const SCREEN_SIZE: usize = 1920;

/// The stored byte of a blank cell.
pub const BLANK: u8 = 0xA0;

/// Where a cell lies in the screen: lines from the top, each from the left.
pub fn cell(column: u8, line: u8) -> usize {
    line as usize * 80 + column as usize
}

/// The first and last column and line that belong to it.
#[derive(Clone, Copy, Debug, PartialEq, Eq)]
pub struct Rectangle {
    pub left: u8,
    pub top: u8,
    pub right: u8,
    pub bottom: u8,
}

/// An absolute screen position.
#[derive(Clone, Copy, Debug, PartialEq, Eq)]
pub struct Cursor {
    pub column: u8,
    pub line: u8,
}

#[derive(Clone, Copy, Debug, PartialEq, Eq)]
pub struct Flags {
    pub dle: bool,
    pub scroll: bool,
    pub wrap: bool,
    pub lf: bool,
    pub advance: bool,
}

/// What $01 saves and $04 takes back.
#[derive(Clone, Copy, Debug, PartialEq, Eq)]
pub struct State {
    pub viewport: Rectangle,
    pub cursor: Cursor,
    pub flags: Flags,
    pub inverse: bool,
    pub mousetext: bool,
}

#[derive(Clone, Copy, Debug, PartialEq, Eq)]
pub struct Port {
    pub home: Rectangle,
    pub state: State,
    /// Whether `saved` carries a saved port.
    pub has_saved: bool,
    pub saved: State,
    /// The code of the command that waits for parameters; 0 for none.
    pub waiting: u8,
    /// How many parameters the waiting command has so far.
    pub gathered: u8,
    pub parameters: [u8; 4],
    /// The screen lines stored to since the marks were last taken. They are
    /// no part of the state, so $01 and $04 leave them alone.
    pub marks: u32,
}

/// The home of a plain console.
pub const WHOLE_SCREEN: Rectangle = Rectangle { left: 0, top: 0, right: 79, bottom: 23 };

/// The saved fields of a port that has saved nothing.
pub const NOTHING_SAVED: State = State {
    viewport: Rectangle { left: 0, top: 0, right: 0, bottom: 0 },
    cursor: Cursor { column: 0, line: 0 },
    flags: Flags { dle: false, scroll: false, wrap: false, lf: false, advance: false },
    inverse: false,
    mousetext: false,
};

impl Rectangle {
    /// At least 2 by 2, and on the screen.
    pub fn legal(self) -> bool {
        self.left < self.right && self.right <= 79 && self.top < self.bottom && self.bottom <= 23
    }

    pub fn inside(self, outer: Rectangle) -> bool {
        outer.left <= self.left
            && self.right <= outer.right
            && outer.top <= self.top
            && self.bottom <= outer.bottom
    }

    pub fn contains(self, cursor: Cursor) -> bool {
        self.left <= cursor.column
            && cursor.column <= self.right
            && self.top <= cursor.line
            && cursor.line <= self.bottom
    }
}

impl State {
    /// The default state of a port with this home.
    pub fn default_in(home: Rectangle) -> State {
        State {
            viewport: home,
            cursor: Cursor { column: home.left, line: home.top },
            flags: Flags { dle: true, scroll: true, wrap: true, lf: true, advance: true },
            inverse: false,
            mousetext: false,
        }
    }

    /// The rules for a port's viewport and cursor, saved or in use.
    fn valid(self, home: Rectangle) -> bool {
        self.viewport.legal() && self.viewport.inside(home) && self.viewport.contains(self.cursor)
    }
}

impl Port {
    /// A plain console's fresh port.
    pub fn fresh() -> Port {
        Port::fresh_in(WHOLE_SCREEN)
    }

    /// A fresh port in any home: default state, nothing saved or waiting,
    /// no line marked.
    pub fn fresh_in(home: Rectangle) -> Port {
        Port {
            home,
            state: State::default_in(home),
            has_saved: false,
            saved: NOTHING_SAVED,
            waiting: 0,
            gathered: 0,
            parameters: [0, 0, 0, 0],
            marks: 0,
        }
    }

    pub fn valid(&self) -> bool {
        self.home.legal()
            && self.state.valid(self.home)
            && self.saved_valid()
            && self.waiting_valid()
            && marks::inside(self.marks, self.home)
    }

    /// A saved port obeys the same rules; with none, its fields hold 0.
    fn saved_valid(&self) -> bool {
        if self.has_saved {
            self.saved.valid(self.home)
        } else {
            self.saved == NOTHING_SAVED
        }
    }

    /// Either nothing waits and nothing is gathered, or a code that takes
    /// parameters waits and lacks at least one. Unused places hold 0.
    fn waiting_valid(&self) -> bool {
        if self.waiting == 0 {
            if self.gathered != 0 {
                return false;
            }
        } else if self.gathered >= parameters_needed(self.waiting) {
            return false;
        }
        for place in 0..4 {
            if place >= self.gathered && self.parameters[place as usize] != 0 {
                return false;
            }
        }
        true
    }
}

/// How many parameters a code takes; only seven codes take some.
pub fn parameters_needed(code: u8) -> u8 {
    match code {
        0x02 => 4,
        0x05 => 1,
        0x06 => 1,
        0x10 => 1,
        0x14 => 1,
        0x15 => 1,
        0x1E => 2,
        0x00 | 0x01 | 0x03 | 0x04 | 0x07..=0x0F | 0x11..=0x13 | 0x16..=0x1D | 0x1F..=0xFF => 0,
    }
}
