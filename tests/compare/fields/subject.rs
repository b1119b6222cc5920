//! What is compared: the reference and the library, each called with the
//! same lent bytes and numbers.

use super::call::{Action, Call};
use super::refusals::text_length;
use super::run::{Field, Position};
use crate::field::{self, Ending, State};
use crate::library;

/// How many numbers a start and keys are answered with.
pub const NUMBERS: usize = 6;

/// What lent answers hold before the call.
pub const LENT: u8 = 0x5A;

#[derive(Clone, Copy)]
pub enum Subject {
    Reference,
    Library,
}

/// The result, and all that was lent, after a call.
#[derive(PartialEq, Eq)]
pub struct Outcome {
    pub result: usize,
    /// Six numbers or the bytes of a text, then what else was lent.
    pub answer: Vec<usize>,
    pub buffer: Vec<u8>,
    /// Only to be read, as a text's buffer is.
    pub default: Vec<u8>,
    pub keys: Vec<u8>,
}

impl Outcome {
    /// The six numbers of a start or of keys, if there was room for them.
    pub fn numbers(&self) -> Option<[usize; NUMBERS]> {
        self.answer.get(..NUMBERS)?.try_into().ok()
    }
}

impl Subject {
    pub fn make(self, field: &Field, before: &Position, call: &Call) -> Outcome {
        let (mut field, mut before) = (field.clone(), before.clone());
        let mut keys = call.keys().to_vec();
        let mut answer = vec![LENT as usize; call.room(NUMBERS)];
        let result = match &call.action {
            Action::Start => self.start(&mut field, &mut before.buffer, &mut answer),
            Action::Keys { .. } => {
                self.keys(&mut field, &mut before.buffer, before.state, &mut keys, &mut answer)
            }
            Action::Text { .. } => {
                let mut bytes = vec![LENT; call.room(text_length(&field, &before))];
                let result = self.text(&mut field, &mut before, &mut bytes);
                answer = bytes.into_iter().map(usize::from).collect();
                result
            }
        };
        Outcome { result, answer, buffer: before.buffer, default: field.default, keys }
    }

    fn start(self, field: &mut Field, buffer: &mut [u8], answer: &mut [usize]) -> usize {
        let Field { width, maximum, default } = field;
        match self {
            Subject::Library => library::field_start(*width, *maximum, default, buffer, answer),
            Subject::Reference if answer.len() < NUMBERS => 0,
            Subject::Reference => {
                let (status, State { length, cursor }) =
                    field::start(*width, *maximum, default, buffer);
                to_front(&[status as usize, length, cursor, 0, 0, 0], answer)
            }
        }
    }

    pub fn keys(
        self,
        field: &mut Field,
        buffer: &mut [u8],
        state: State,
        keys: &mut [u8],
        answer: &mut [usize],
    ) -> usize {
        let Field { width, maximum, default } = field;
        match self {
            Subject::Library => {
                library::field_keys(*width, *maximum, default, buffer, state, keys, answer)
            }
            Subject::Reference if answer.len() < NUMBERS => 0,
            Subject::Reference => {
                let given = field::keys(*width, *maximum, default, buffer, state, keys);
                let State { length, cursor } = given.state;
                let ending = match given.ending {
                    Ending::None => 0,
                    Ending::Return => 0x0D,
                    Ending::Escape => 0x1B,
                };
                let status = given.status as usize;
                to_front(&[status, length, cursor, given.read, given.beeps, ending], answer)
            }
        }
    }

    fn text(self, field: &mut Field, before: &mut Position, answer: &mut [u8]) -> usize {
        match self {
            Subject::Library => {
                let Field { width, maximum, default } = field;
                let Position { buffer, state, ending } = before;
                library::field_text(*width, *maximum, default, buffer, *state, *ending, answer)
            }
            Subject::Reference => to_front(handed_back(field, before), answer),
        }
    }
}

/// The text that the reference hands back.
fn handed_back<'a>(field: &'a Field, before: &'a Position) -> &'a [u8] {
    let ending = match before.ending {
        0x0D => Ending::Return,
        0x1B => Ending::Escape,
        _ => Ending::None,
    };
    let (width, maximum) = (field.width, field.maximum);
    field::text(width, maximum, &field.default, &before.buffer, before.state, ending)
}

/// Copies all to the front and gives the length; 0 if there is no room.
fn to_front<T: Copy>(from: &[T], answer: &mut [T]) -> usize {
    match answer.get_mut(..from.len()) {
        None => 0,
        Some(front) => {
            front.copy_from_slice(from);
            from.len()
        }
    }
}
