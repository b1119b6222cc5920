//! The pieces that random streams are made of.

use crate::port::{Rectangle, WHOLE_SCREEN};
use crate::rng::Rng;

/// Brings what a port hides to the screen: it ends a command that waits
/// and prints at the cursor in the mode in force. What follows goes by the
/// five flags, the last by MouseText.
pub const SHOW: [u8; 17] = [
    0x41, 0x41, 0x41, 0x41, 0x41, 0x0D, 0x42, 0x1E, 0x7F, 0x7F, 0x43, 0x44, 0x10, 0x22, 0x45, 0x0F,
    0x46,
];

pub struct Builder {
    pub rng: Rng,
    pub stream: Vec<u8>,
    /// The home of the port that the stream is for.
    pub home: Rectangle,
    /// The dimensions of the viewport set last, as a guess for parameters.
    pub width: u8,
    pub height: u8,
}

impl Builder {
    pub fn new(rng: Rng) -> Builder {
        Builder { rng, stream: Vec::new(), home: WHOLE_SCREEN, width: 80, height: 24 }
    }

    /// From here on the stream is for a port with this home and viewport.
    pub fn aim(&mut self, home: Rectangle, viewport: Rectangle) {
        self.home = home;
        self.width = viewport.right - viewport.left + 1;
        self.height = viewport.bottom - viewport.top + 1;
    }

    /// Some printing codes, fewer than `most`.
    pub fn text(&mut self, most: u64) {
        for _ in 0..self.rng.below(most) {
            let code = self.rng.between(0x20, 0xFF);
            self.stream.push(code);
        }
    }

    /// Every cell of the screen, or of the viewport if one is set, printed
    /// without scrolling.
    pub fn text_everywhere(&mut self) {
        self.stream.extend_from_slice(&[0x19, 0x15, 0x17]);
        for _ in 0..self.width as usize * self.height as usize {
            let code = self.rng.between(0x21, 0xFF);
            self.stream.push(code);
        }
        self.stream.extend_from_slice(&[0x15, 0x1F, 0x19]);
    }

    pub fn flags(&mut self) {
        let byte = self.rng.byte();
        self.stream.extend_from_slice(&[0x15, byte]);
    }

    /// A viewport in home: small, medium, or any.
    pub fn viewport(&mut self) {
        let (most_columns, most_lines) = match self.rng.below(4) {
            0 => (1, 1),
            1 => (3, 3),
            2 => (12, 6),
            _ => (79, 23),
        };
        let home = self.home;
        let (left, right) = self.rng.interval(home.left, home.right, most_columns);
        let (top, bottom) = self.rng.interval(home.top, home.bottom, most_lines);
        self.width = right - left + 1;
        self.height = bottom - top + 1;
        let (left, right) = self.outwards((left, right), (home.left, home.right));
        let (top, bottom) = self.outwards((top, bottom), (home.top, home.bottom));
        self.stream.extend_from_slice(&[0x02, left + 32, top + 32, right + 32, bottom + 32]);
    }

    /// Values past home mean its nearest column or line, so a first or
    /// last one of home may be given by any value further out.
    fn outwards(&mut self, (first, last): (u8, u8), home: (u8, u8)) -> (u8, u8) {
        let out_left = first == home.0 && self.rng.once_in(2);
        let out_right = last == home.1 && self.rng.once_in(2);
        let first = if out_left { self.rng.between(0, first) } else { first };
        let last = if out_right { self.rng.between(last, 95) } else { last };
        (first, last)
    }

    pub fn dle_flood(&mut self) {
        for _ in 0..1 + self.rng.below(4) {
            let any = self.rng.byte();
            let count = self.rng.pick(&[0xFF, 0xFF, 0x21, 32 + self.width, any]);
            self.stream.extend_from_slice(&[0x10, count]);
        }
    }

    pub fn shift(&mut self) {
        let width = self.width;
        let any = self.rng.byte();
        let near = self.rng.between(1, width);
        let left =
            [255, 0 - (width as i16), 1 - (width as i16), -1 - (width as i16), -(near as i16)];
        let left = left.map(|amount| amount as u8);
        let amount = match self.rng.below(4) {
            0 => self.rng.pick(&[0, 1, 127, 128, 255, any]),
            1 => self.rng.pick(&[1, width, width - 1, width + 1, near]),
            2 => self.rng.pick(&left),
            _ => any,
        };
        self.stream.extend_from_slice(&[0x05, amount]);
    }

    /// A column or line near the first, near the last, or any.
    pub fn place(&mut self, measure: u8) -> u8 {
        let any = self.rng.between(0, measure - 1);
        32 + self.rng.pick(&[0, 0, 1, any, measure - 2, measure - 1, measure - 1, measure])
    }

    pub fn place_cursor(&mut self) {
        let column = self.place(self.width);
        let line = self.place(self.height);
        match self.rng.below(4) {
            0 => self.stream.extend_from_slice(&[0x14, column]),
            1 => self.stream.extend_from_slice(&[0x06, line]),
            _ => self.stream.extend_from_slice(&[0x1E, column, line]),
        }
    }

    /// Moves at an edge or corner, under any flags.
    pub fn moves_at_an_edge(&mut self) {
        if self.rng.once_in(2) {
            self.flags();
        }
        self.place_cursor();
        for _ in 0..1 + self.rng.below(4) {
            let printed = self.rng.between(0x20, 0xFF);
            let code = self.rng.pick(&[0x08, 0x0A, 0x0D, 0x1C, 0x1F, printed]);
            self.stream.push(code);
        }
    }

    pub fn saves_and_restores(&mut self) {
        for _ in 0..1 + self.rng.below(3) {
            let code = self.rng.pick(&[0x01, 0x04]);
            self.stream.push(code);
            match self.rng.below(3) {
                0 => self.viewport(),
                1 => self.mode_and_text(),
                _ => self.flags(),
            }
        }
    }

    pub fn mode_and_text(&mut self) {
        for _ in 0..1 + self.rng.below(2) {
            let code = self.rng.pick(&[0x0E, 0x0F, 0x0F, 0x1B, 0x1B, 0x18]);
            self.stream.push(code);
        }
        self.text(12);
    }

    pub fn erase_or_scroll(&mut self) {
        self.place_cursor();
        let code = self.rng.pick(&[0x03, 0x1D, 0x1A, 0x13, 0x0B, 0x0C, 0x16, 0x17]);
        self.stream.push(code);
    }
}
