//! The input field: a text typed and edited key by key in a lent buffer,
//! starting as a lent default.
//!
//! Here the text is a vector of its own. After the start and after each key
//! it is laid over the front of the buffer, so "buffer bytes from the text's
//! new end on are as before it" without a further rule.

/// "A width and a maximum of 1 to 254 each."
pub const LARGEST: usize = 254;

/// The text is the first `length` bytes of the buffer. The cursor stands on
/// the character of that place, or after the last one.
#[derive(Clone, Copy, Debug, PartialEq, Eq)]
pub struct State {
    pub length: usize,
    pub cursor: usize,
}

/// The ending key that a call met, or none.
#[derive(Clone, Copy, Debug, PartialEq, Eq)]
pub enum Ending {
    None,
    Return,
    Escape,
}

/// What a call that reads keys hands back.
#[derive(Clone, Copy, Debug, PartialEq, Eq)]
pub struct Answer {
    pub status: u8,
    pub state: State,
    pub read: usize,
    pub beeps: usize,
    pub ending: Ending,
}

/// What one key did.
enum Effect {
    Done,
    Beeped,
    Ended(Ending),
}

/// A field while keys are read.
struct Field<'a> {
    width: usize,
    maximum: usize,
    default: &'a [u8],
    text: Vec<u8>,
    cursor: usize,
}

/// Puts the default into the buffer. Refusals 11, 12 and 13. Gives the
/// status and the state; a refused start has no state to hand back but 0, 0.
pub fn start(width: usize, maximum: usize, default: &[u8], buffer: &mut [u8]) -> (u8, State) {
    let status = refusal(width, maximum, default, buffer);
    if status != 0 {
        return (status, State { length: 0, cursor: 0 });
    }
    let field = Field::started(width, maximum, default);
    lay(&field.text, buffer);
    (0, field.state())
}

/// Reads keys up to the stream's end or an ending key. Refusals 11, 12, 13
/// and 19.
pub fn keys(
    width: usize,
    maximum: usize,
    default: &[u8],
    buffer: &mut [u8],
    state: State,
    keys: &[u8],
) -> Answer {
    let status = refusal_with_state(width, maximum, default, buffer, state);
    if status != 0 {
        return Answer { status, state, read: 0, beeps: 0, ending: Ending::None };
    }
    let text = buffer[..state.length].to_vec();
    let mut field = Field { width, maximum, default, text, cursor: state.cursor };
    let mut read = 0;
    let mut beeps = 0;
    let mut ending = Ending::None;
    for &key in keys {
        read += 1;
        match field.press(key) {
            // Laid after each key and not once at the end: what a key
            // typed stays in the buffer when a later key deletes it.
            Effect::Done => lay(&field.text, buffer),
            Effect::Beeped => beeps += 1,
            Effect::Ended(by) => {
                ending = by;
                break;
            }
        }
    }
    Answer { status: 0, state: field.state(), read, beeps, ending }
}

/// What the field gives its host, as a part of one of the two lent texts.
/// A refusal, 11, 12, 13 or 19, shows as an empty part.
pub fn text<'a>(
    width: usize,
    maximum: usize,
    default: &'a [u8],
    buffer: &'a [u8],
    state: State,
    ending: Ending,
) -> &'a [u8] {
    if refusal_with_state(width, maximum, default, buffer, state) != 0 {
        return &buffer[0..0];
    }
    match ending {
        Ending::None => &buffer[0..0],
        Ending::Return => &buffer[..state.length],
        Ending::Escape => default,
    }
}

/// The refusals that need no state, in their order; 0 if none applies.
fn refusal(width: usize, maximum: usize, default: &[u8], buffer: &[u8]) -> u8 {
    if !in_range(width) || !in_range(maximum) {
        11
    } else if buffer.len() < maximum {
        12
    } else if default.len() > maximum {
        13
    } else {
        0
    }
}

/// The same, and 19 as the last.
fn refusal_with_state(
    width: usize,
    maximum: usize,
    default: &[u8],
    buffer: &[u8],
    state: State,
) -> u8 {
    let status = refusal(width, maximum, default, buffer);
    if status != 0 {
        status
    } else if state.length > maximum || state.cursor > state.length || state.cursor > width {
        19
    } else {
        0
    }
}

fn in_range(number: usize) -> bool {
    1 <= number && number <= LARGEST
}

/// Lays the text over the front of the buffer; the bytes behind it stay.
fn lay(text: &[u8], buffer: &mut [u8]) {
    for (place, byte) in text.iter().enumerate() {
        buffer[place] = *byte;
    }
}

impl<'a> Field<'a> {
    fn started(width: usize, maximum: usize, default: &'a [u8]) -> Field<'a> {
        let mut field = Field { width, maximum, default, text: Vec::new(), cursor: 0 };
        field.take_default();
        field
    }

    /// "The text starts as the default, cursor after its last character but
    /// never past the width."
    fn take_default(&mut self) {
        self.text = self.default.to_vec();
        self.cursor = self.default.len().min(self.width);
    }

    fn state(&self) -> State {
        State { length: self.text.len(), cursor: self.cursor }
    }

    fn press(&mut self, key: u8) -> Effect {
        match key {
            0x20..=0x7E => self.insert(key),
            0x08 => self.move_left(),
            0x15 => self.move_right(),
            0x04 => self.delete_left(),
            0x7F => self.delete_left(),
            0x06 => self.delete_under(),
            0x18 => self.empty(),
            0x19 => self.delete_to_end(),
            0x1A => self.restart(),
            0x0D => Effect::Ended(Ending::Return),
            0x1B => Effect::Ended(Ending::Escape),
            _ => Effect::Beeped,
        }
    }

    /// The cursor is below the width, so it does not pass it by one step.
    fn insert(&mut self, key: u8) -> Effect {
        if self.text.len() >= self.maximum || self.cursor >= self.width {
            return Effect::Beeped;
        }
        self.text.insert(self.cursor, key);
        self.cursor += 1;
        Effect::Done
    }

    fn move_left(&mut self) -> Effect {
        if self.cursor == 0 {
            return Effect::Beeped;
        }
        self.cursor -= 1;
        Effect::Done
    }

    /// "The cursor never passes the text's end or the width."
    fn move_right(&mut self) -> Effect {
        if self.cursor >= self.text.len() || self.cursor >= self.width {
            return Effect::Beeped;
        }
        self.cursor += 1;
        Effect::Done
    }

    fn delete_left(&mut self) -> Effect {
        if self.cursor == 0 {
            return Effect::Beeped;
        }
        self.cursor -= 1;
        self.text.remove(self.cursor);
        Effect::Done
    }

    /// At the width the cursor stands on the first character kept beyond
    /// it, if there is one.
    fn delete_under(&mut self) -> Effect {
        if self.cursor >= self.text.len() {
            return Effect::Beeped;
        }
        self.text.remove(self.cursor);
        Effect::Done
    }

    fn empty(&mut self) -> Effect {
        if self.text.is_empty() {
            return Effect::Beeped;
        }
        self.text.clear();
        self.cursor = 0;
        Effect::Done
    }

    fn delete_to_end(&mut self) -> Effect {
        if self.cursor >= self.text.len() {
            return Effect::Beeped;
        }
        self.text.truncate(self.cursor);
        Effect::Done
    }

    /// Neither a move nor a delete, so it is never beeped.
    fn restart(&mut self) -> Effect {
        self.take_default();
        Effect::Done
    }
}
