//! What single keys do, and which of it random runs must meet.

use super::run::Field;
use crate::field::State;

/// A key that an accepted call reads, and what is there before it.
pub struct Press<'a> {
    pub field: &'a Field,
    pub buffer: &'a [u8],
    pub state: State,
    pub key: u8,
}

/// What a key does in some place: its line, a name, how often it beeps,
/// and whether this is the place.
type Effect = (u8, &'static str, usize, fn(&Press) -> bool);

/// All keys that print share one line, and so do all without a meaning
/// that are not among `LINES`.
const PRINTING: u8 = 0x20;
const OTHER: u8 = 0x00;

/// The keys that have a line of their own.
const LINES: [u8; 13] =
    [0x04, 0x05, 0x06, 0x08, 0x0D, 0x15, 0x18, 0x19, 0x1A, 0x1B, 0x7F, 0x80, 0xFF];

/// Of the effects on a key's line one fits in every place.
const EFFECTS: [Effect; 34] = [
    (PRINTING, "printing, appended", 0, |at| at.free() && at.end()),
    (PRINTING, "printing, inserted", 0, |at| at.free() && !at.end()),
    (PRINTING, "printing, beeped only at the maximum", 1, |at| at.full() && !at.width()),
    (PRINTING, "printing, beeped only at the width", 1, |at| !at.full() && at.width()),
    (PRINTING, "printing, beeped at both", 1, |at| at.full() && at.width()),
    (0x08, "$08, moved", 0, |at| !at.left()),
    (0x08, "$08, beeped at the left", 1, |at| at.left()),
    (0x15, "$15, moved", 0, |at| !at.end() && !at.width()),
    (0x15, "$15, beeped at the text's end", 1, |at| at.end() && !at.width()),
    (0x15, "$15, beeped at the width, with text beyond", 1, |at| at.more()),
    (0x15, "$15, beeped at both", 1, |at| at.end() && at.width()),
    (0x04, "$04, deleted", 0, |at| !at.left() && !at.more()),
    (0x04, "$04, deleted at the width, with text beyond", 0, |at| at.more()),
    (0x04, "$04, beeped at the left", 1, |at| at.left()),
    (0x7F, "$7F, deleted", 0, |at| !at.left() && !at.more()),
    (0x7F, "$7F, deleted at the width, with text beyond", 0, |at| at.more()),
    (0x7F, "$7F, beeped at the left", 1, |at| at.left()),
    (0x06, "$06, deleted", 0, |at| !at.end() && !at.width()),
    (0x06, "$06, deleted the first beyond the width", 0, |at| at.more()),
    (0x06, "$06, beeped at the text's end", 1, |at| at.end()),
    (0x18, "$18, emptied", 0, |at| at.state.length > 0),
    (0x18, "$18, beeped on an empty text", 1, |at| at.state.length == 0),
    (0x19, "$19, deleted", 0, |at| !at.end() && !at.width()),
    (0x19, "$19, deleted all beyond the width", 0, |at| at.more()),
    (0x19, "$19, beeped at the text's end", 1, |at| at.end()),
    (0x1A, "$1A, on a longer text", 0, |at| at.state.length > at.field.default.len()),
    (0x1A, "$1A, on a shorter text", 0, |at| at.state.length < at.field.default.len()),
    (0x1A, "$1A, on one as long", 0, |at| at.state.length == at.field.default.len()),
    (0x0D, "$0D, read", 0, |_| true),
    (0x1B, "$1B, read", 0, |_| true),
    (0x05, "$05, beeped", 1, |_| true),
    (0x80, "$80, beeped", 1, |_| true),
    (0xFF, "$FF, beeped", 1, |_| true),
    (OTHER, "without a meaning, beeped", 1, |_| true),
];

impl Press<'_> {
    fn line(&self) -> u8 {
        match self.key {
            0x20..=0x7E => PRINTING,
            key if LINES.contains(&key) => key,
            _ => OTHER,
        }
    }

    fn left(&self) -> bool {
        self.state.cursor == 0
    }

    fn end(&self) -> bool {
        self.state.cursor == self.state.length
    }

    fn width(&self) -> bool {
        self.state.cursor == self.field.width
    }

    /// At the width, with text beyond it.
    fn more(&self) -> bool {
        self.width() && !self.end()
    }

    fn full(&self) -> bool {
        self.state.length == self.field.maximum
    }

    fn free(&self) -> bool {
        !self.full() && !self.width()
    }
}

/// How often each key and each effect was met.
pub struct Effects {
    keys: [u64; 256],
    met: [u64; EFFECTS.len()],
}

impl Effects {
    pub fn new() -> Effects {
        Effects { keys: [0; 256], met: [0; EFFECTS.len()] }
    }

    /// Notes a key that was read with so many beeps; tells in words if
    /// they are too many or too few.
    pub fn note(&mut self, press: &Press, beeps: usize) -> Result<(), String> {
        let line = press.line();
        let fits = |(on, _, _, test): &Effect| *on == line && test(press);
        let place = EFFECTS.iter().position(fits).expect("one fits");
        let (_, name, wanted, _) = EFFECTS[place];
        self.keys[press.key as usize] += 1;
        self.met[place] += 1;
        if beeps == wanted {
            return Ok(());
        }
        let State { length, cursor } = press.state;
        Err(format!(
            "{} beeps and not {} for key {:02x} at length {}, cursor {} ('{}')",
            beeps, wanted, press.key, length, cursor, name
        ))
    }

    /// Prints how many of the keys were read, and each effect: those of
    /// keys that do something or end the field, and those that beep.
    pub fn print(&self) {
        let read = self.keys.iter().filter(|&&times| times > 0).count();
        println!("keys: {} of {} values read", read, self.keys.len());
        for (beeps, heading) in ["done", "beeped"].iter().enumerate() {
            let met: Vec<String> = EFFECTS
                .iter()
                .zip(self.met)
                .filter(|((_, _, wanted, _), _)| *wanted == beeps)
                .map(|((_, name, _, _), times)| format!("{} ({} times)", name, times))
                .collect();
            println!("{}: {}", heading, met.join("; "));
        }
    }

    /// All that can be met, and how often it was.
    pub fn all(&self) -> Vec<(String, u64)> {
        let mut all = Vec::new();
        for (key, times) in self.keys.iter().enumerate() {
            all.push((format!("keys: ${:02X} read", key), *times));
        }
        for ((_, name, _, _), times) in EFFECTS.iter().zip(self.met) {
            all.push((format!("keys: {}", name), times));
        }
        all
    }
}
