//! Which pairs of code and setting a run has reached: each control code with
//! each setting of the five flags, and each printing code with inverse and
//! MouseText on and off.

use crate::port::{parameters_needed, Flags, Port, State};

const CONTROL_CODES: usize = 0x20;
const PRINTING_CODES: usize = 0x100 - CONTROL_CODES;
const FLAG_SETTINGS: usize = 32;
const MODE_SETTINGS: usize = 4;

pub const CONTROL_PAIRS: usize = CONTROL_CODES * FLAG_SETTINGS;
pub const ALL_PAIRS: usize = CONTROL_PAIRS + PRINTING_CODES * MODE_SETTINGS;

pub struct Pairs {
    /// For each code whether it was reached with each of its settings.
    reached: Vec<Vec<bool>>,
}

impl Pairs {
    pub fn none() -> Pairs {
        let mut reached = vec![vec![false; FLAG_SETTINGS]; CONTROL_CODES];
        reached.resize(CONTROL_CODES + PRINTING_CODES, vec![false; MODE_SETTINGS]);
        Pairs { reached }
    }

    /// Notes the command that this byte completes or the code that it
    /// prints, if any, with the setting in force before.
    pub fn note(&mut self, port: &Port, byte: u8) {
        if let Some(code) = command_completed(port, byte) {
            self.reached[code as usize][flag_setting(port.state.flags)] = true;
        } else if port.waiting == 0 && byte >= 0x20 {
            self.reached[byte as usize][mode_setting(&port.state)] = true;
        }
    }

    pub fn count(&self) -> usize {
        self.reached.iter().flatten().filter(|&&reached| reached).count()
    }

    /// The code and setting of each pair not reached, in words.
    pub fn missing(&self) -> Vec<String> {
        let mut missing = Vec::new();
        for (code, settings) in self.reached.iter().enumerate() {
            let kind = if code < CONTROL_CODES { "flags" } else { "modes" };
            for (setting, &reached) in settings.iter().enumerate() {
                if !reached {
                    missing.push(format!("${:02X} with {} {}", code, kind, setting));
                }
            }
        }
        missing
    }
}

/// The control code that is executed once the port has taken this byte.
pub fn command_completed(port: &Port, byte: u8) -> Option<u8> {
    if port.waiting != 0 {
        if port.gathered + 1 == parameters_needed(port.waiting) {
            Some(port.waiting)
        } else {
            None
        }
    } else if byte < 0x20 && parameters_needed(byte) == 0 {
        Some(byte)
    } else {
        None
    }
}

/// The flags as the low five bits of $15's parameter.
fn flag_setting(flags: Flags) -> usize {
    number(&[flags.dle, flags.scroll, flags.wrap, flags.lf, flags.advance])
}

/// MouseText is the low bit.
fn mode_setting(state: &State) -> usize {
    number(&[state.inverse, state.mousetext])
}

/// The bits as a number, the highest first.
fn number(bits: &[bool]) -> usize {
    bits.iter().fold(0, |number, &bit| 2 * number + bit as usize)
}
