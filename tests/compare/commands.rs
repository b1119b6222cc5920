//! Single commands of random streams: good, bad and cut off.

use crate::pieces::Builder;
use crate::port::parameters_needed;

/// The codes that take parameters.
const WITH_PARAMETERS: [u8; 7] = [0x02, 0x05, 0x06, 0x10, 0x14, 0x15, 0x1E];

impl Builder {
    /// One of the 1024 pairs of control code and flags: a setting of the
    /// flags and a command under it.
    pub fn pair(&mut self, pair: u64) {
        let setting = (pair % 32) as u8;
        let code = (pair / 32 % 32) as u8;
        let ignored_bits = self.rng.byte() & 0b1110_0000;
        self.stream.extend_from_slice(&[0x15, setting | ignored_bits]);
        self.command(code);
    }

    /// Any control code, often under new flags.
    pub fn any_command(&mut self) {
        if self.rng.once_in(2) {
            self.flags();
        }
        let code = self.rng.between(0x00, 0x1F);
        self.command(code);
    }

    /// A control code with parameters that mean something.
    fn command(&mut self, code: u8) {
        match code {
            0x02 => self.viewport(),
            0x05 => self.shift(),
            0x06 | 0x14 | 0x1E => {
                self.stream.push(code);
                for _ in 0..parameters_needed(code) {
                    let place = self.place(self.width);
                    self.stream.push(place);
                }
            }
            0x10 => {
                let count = self.rng.between(32, 60);
                self.stream.extend_from_slice(&[0x10, count]);
            }
            0x15 => self.flags(),
            _ => self.stream.push(code),
        }
    }

    /// A viewport that is ignored: one parameter out of range, the last
    /// column or line not after the first, or all of it past one of
    /// home's edges.
    pub fn bad_viewport(&mut self) {
        let (width, height) = (self.width, self.height);
        self.viewport();
        self.width = width;
        self.height = height;
        let start = self.stream.len() - 4;
        let (left, top) = (self.stream[start], self.stream[start + 1]);
        match self.rng.below(8) {
            0 => self.stream[start + 2] = left,
            1 => self.stream[start + 3] = top,
            2 => self.stream.swap(start, start + 2),
            3 => self.stream.swap(start + 1, start + 3),
            4 => self.past_an_edge(start, self.home.left, self.home.right),
            5 => self.past_an_edge(start + 1, self.home.top, self.home.bottom),
            _ => {
                let place = start + self.rng.below(4) as usize;
                let low = self.rng.between(0x00, 0x1F);
                let high = self.rng.between(0x80, 0xFF);
                self.stream[place] = self.rng.pick(&[0x1F, 0x80, low, high]);
            }
        }
    }

    /// Two parameters, the first at `place`, that stand in order but mean
    /// the same edge of home.
    fn past_an_edge(&mut self, place: usize, home_first: u8, home_last: u8) {
        let (first, last) = if home_first > 0 && self.rng.once_in(2) {
            self.rng.interval(0, home_first, home_first)
        } else {
            self.rng.interval(home_last, 95, 95)
        };
        self.stream[place] = first + 32;
        self.stream[place + 2] = last + 32;
    }

    /// A code with parameters that are out of range or at its ends, look
    /// like codes, or cross each other.
    pub fn bad_command(&mut self) {
        let code = self.rng.pick(&WITH_PARAMETERS);
        self.stream.push(code);
        for _ in 0..parameters_needed(code) {
            let low = self.rng.between(0x00, 0x1F);
            let high = self.rng.between(0x80, 0xFF);
            let any = self.rng.byte();
            let ends = self.rng.pick(&[0x1F, 0x20, 0x21, 0x7F, 0x80, 0xFF]);
            let parameter = self.rng.pick(&[low, high, any, ends, ends, 0x20, 0x30]);
            self.stream.push(parameter);
        }
    }

    /// A command of which at least one parameter is missing.
    pub fn command_cut_off(&mut self) {
        let code = self.rng.pick(&WITH_PARAMETERS);
        self.stream.push(code);
        for _ in 0..self.rng.below(parameters_needed(code) as u64) {
            let parameter = self.rng.byte();
            self.stream.push(parameter);
        }
    }
}
