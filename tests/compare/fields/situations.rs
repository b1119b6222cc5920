//! Situations that random runs must meet.

use super::call::KINDS;
use super::moment::Moment;

/// A name, the status that is to be given, and what else holds.
type Situation = (&'static str, u8, fn(&Moment) -> bool);

/// By kind of call.
const SITUATIONS: [&[Situation]; 3] = [&STARTS, &KEYS, &TEXTS];

const STARTS: [Situation; 11] = [
    ("default empty", 0, |now| now.default() == 0),
    ("default as long as the maximum", 0, |now| now.default() == now.field.maximum),
    ("default one too long", 13, |now| now.default() == now.field.maximum + 1),
    ("default shorter than the width", 0, |now| now.default() < now.field.width),
    ("default as long as the width", 0, |now| now.default() == now.field.width),
    ("default longer than the width", 0, |now| now.default() > now.field.width),
    ("buffer empty", 12, |now| now.buffer() == 0),
    ("buffer one too short", 12, |now| now.buffer() + 1 == now.field.maximum),
    ("buffer as long as the maximum", 0, |now| now.buffer() == now.field.maximum),
    ("buffer longer, and changed", 0, |now| now.changes_longer()),
    ("after an ending", 0, |now| now.step.last_ending != 0),
];

const KEYS: [Situation; 22] = [
    ("none", 0, |now| now.keys() == 0),
    ("width below the maximum", 0, |now| now.field.width < now.field.maximum),
    ("width equal to the maximum", 0, |now| now.field.width == now.field.maximum),
    ("width above the maximum", 0, |now| now.field.width > now.field.maximum),
    ("buffer as long as the maximum", 0, |now| now.buffer() == now.field.maximum),
    ("buffer longer, and changed", 0, |now| now.changes_longer()),
    ("text beyond the width", 0, |now| now.length() > now.field.width),
    ("the longest text there is", 0, |now| now.length() == 254),
    ("length at the maximum", 0, |now| now.length() == now.field.maximum),
    ("cursor at the width", 0, |now| now.cursor() == now.field.width),
    ("no ending", 0, |now| now.ended_by(0) && now.keys_read() > 0),
    ("Return, the last key", 0, |now| now.ended_by(0x0D) && now.keys_read() == now.keys()),
    ("Return, with keys behind it", 0, |now| now.ended_by(0x0D) && now.keys_read() < now.keys()),
    ("Escape, the last key", 0, |now| now.ended_by(0x1B) && now.keys_read() == now.keys()),
    ("Escape, with keys behind it", 0, |now| now.ended_by(0x1B) && now.keys_read() < now.keys()),
    ("going on after Return", 0, |now| now.goes_on_after(0x0D)),
    ("going on after Escape", 0, |now| now.goes_on_after(0x1B)),
    ("only the length past the maximum", 19, |now| now.breaks(0)),
    ("only the cursor past the length", 19, |now| now.breaks(1)),
    ("only the cursor past the width", 19, |now| now.breaks(2)),
    ("length far past", 19, |now| now.length() == usize::MAX),
    ("cursor far past", 19, |now| now.cursor() == usize::MAX),
];

/// Where the answer is to be empty, a wrong text would show, if there is
/// a text and a place is lent at all.
const TEXTS: [Situation; 26] = [
    ("Return", 0, |now| now.ending() == 0x0D && now.length() > 0),
    ("Return, nothing typed", 0, |now| returns_nothing(now)),
    ("Return, text beyond the width", 0, |now| returns_beyond(now)),
    ("Escape", 0, |now| now.ending() == 0x1B && now.default() > 0),
    ("Escape, default empty", 0, |now| escapes_to_nothing(now)),
    ("no ending", 0, |now| now.ending() == 0 && either_shows(now)),
    ("no ending, both texts empty", 0, |now| now.ending() == 0 && empty(now)),
    ("a key that does not end", 0, |now| no_ending(now) && either_shows(now)),
    ("the Return just read", 0, |now| now.ending() == 0x0D && now.step.last_ending == 0x0D),
    ("the Escape just read", 0, |now| now.ending() == 0x1B && now.step.last_ending == 0x1B),
    ("Return, refused", 19, |now| now.ending() == 0x0D && shows(now)),
    ("Return, nothing typed, refused", 19, |now| returns_nothing(now)),
    ("Escape, refused", 19, |now| now.ending() == 0x1B && shows(now)),
    ("Escape, default empty, refused", 19, |now| escapes_to_nothing(now)),
    ("no ending, refused", 19, |now| now.ending() == 0 && either_shows(now)),
    ("no ending, both texts empty, refused", 19, |now| now.ending() == 0 && empty(now)),
    ("only the length past the maximum", 19, |now| now.breaks(0) && shows(now)),
    ("only the cursor past the length", 19, |now| now.breaks(1) && shows(now)),
    ("only the cursor past the width", 19, |now| now.breaks(2) && shows(now)),
    ("length far past", 19, |now| now.length() == usize::MAX && shows(now)),
    ("cursor far past", 19, |now| now.cursor() == usize::MAX && shows(now)),
    ("no answer lent", 0, |now| now.text_length() > 1 && now.lent() == 0),
    ("no answer lent, none needed", 0, |now| now.text_length() == 0 && now.lent() == 0),
    ("answer lent one too short", 0, |now| now.text_length() == now.lent() + 1),
    ("answer lent as long", 0, |now| now.text_length() > 0 && now.text_length() == now.lent()),
    ("answer lent too long", 0, |now| now.text_length() > 0 && now.text_length() < now.lent()),
];

fn returns_beyond(now: &Moment) -> bool {
    now.ending() == 0x0D && now.length() > now.field.width
}

fn no_ending(now: &Moment) -> bool {
    ![0, 0x0D, 0x1B].contains(&now.ending())
}

/// The text of the ending would show; without an ending there is none.
fn shows(now: &Moment) -> bool {
    now.would_show(now.ending())
}

/// Both texts have bytes, and the shorter one would show.
fn either_shows(now: &Moment) -> bool {
    let full = now.length() > 0 && now.default() > 0;
    full && (now.would_show(0x0D) || now.would_show(0x1B))
}

/// Nothing was typed, and the default would show.
fn returns_nothing(now: &Moment) -> bool {
    now.ending() == 0x0D && now.length() == 0 && now.would_show(0x1B)
}

/// The default is empty, and what was typed would show.
fn escapes_to_nothing(now: &Moment) -> bool {
    now.ending() == 0x1B && now.default() == 0 && now.would_show(0x0D)
}

fn empty(now: &Moment) -> bool {
    now.length() == 0 && now.default() == 0
}

/// How often each situation was met, by kind of call.
pub struct Situations {
    met: [Vec<u64>; 3],
}

impl Situations {
    pub fn new() -> Situations {
        Situations { met: SITUATIONS.map(|of_kind| vec![0; of_kind.len()]) }
    }

    pub fn see(&mut self, now: &Moment) {
        let kind = now.step.call.kind();
        for ((_, status, holds), met) in SITUATIONS[kind].iter().zip(&mut self.met[kind]) {
            *met += (*status == now.status() && holds(now)) as u64;
        }
    }

    /// All that can be met, and how often it was.
    pub fn all(&self) -> Vec<(String, u64)> {
        let mut all = Vec::new();
        for (kind, name) in KINDS.iter().enumerate() {
            for ((situation, _, _), times) in SITUATIONS[kind].iter().zip(&self.met[kind]) {
                all.push((format!("{}: {}", name, situation), *times));
            }
        }
        all
    }
}
