//! A run of calls on one field: what is lent to it, and what the
//! reference makes of it.

use super::call::{Action, Call, KINDS};
use super::subject::{Outcome, Subject};
use crate::field::State;

/// What each call of a run is given.
#[derive(Clone, PartialEq, Eq)]
pub struct Field {
    pub width: usize,
    pub maximum: usize,
    pub default: Vec<u8>,
}

#[derive(Clone, PartialEq, Eq)]
pub struct Run {
    pub field: Field,
    /// The lent buffer before the run.
    pub buffer: Vec<u8>,
    pub calls: Vec<Call>,
}

/// What a call starts from: the buffer, and the state and the ending that
/// it is given.
#[derive(Clone)]
pub struct Position {
    pub buffer: Vec<u8>,
    pub state: State,
    /// An ending key; any other byte is none.
    pub ending: u8,
}

/// A call, what it starts from, and its outcome.
pub struct Step<'a> {
    pub call: &'a Call,
    pub before: Position,
    /// What the calls before it left as the ending.
    pub last_ending: u8,
    pub outcome: Outcome,
}

impl Step<'_> {
    /// Which call it is, by its place in the run.
    pub fn name(&self, place: usize) -> String {
        format!("call {} ({})", place + 1, KINDS[self.call.kind()])
    }
}

impl Run {
    /// Every call, made on the reference. The state and the ending that
    /// the last accepted call left are handed on.
    pub fn by_reference(&self) -> Vec<Step<'_>> {
        let start = State { length: 0, cursor: 0 };
        let mut left = Position { buffer: self.buffer.clone(), state: start, ending: 0 };
        let mut steps = Vec::new();
        for call in &self.calls {
            let before = asked(call, &left);
            let last_ending = left.ending;
            let outcome = Subject::Reference.make(&self.field, &before, call);
            left = handed_on(left, call, &outcome);
            steps.push(Step { call, before, last_ending, outcome });
        }
        steps
    }
}

/// What a call starts from, with a state and an ending of its own if it
/// has them.
fn asked(call: &Call, left: &Position) -> Position {
    let (state, ending) = match call.action {
        Action::Start => (None, None),
        Action::Keys { state, .. } => (state, None),
        Action::Text { state, ending } => (state, ending),
    };
    Position {
        buffer: left.buffer.clone(),
        state: state.unwrap_or(left.state),
        ending: ending.unwrap_or(left.ending),
    }
}

fn handed_on(left: Position, call: &Call, outcome: &Outcome) -> Position {
    let buffer = outcome.buffer.clone();
    match (&call.action, outcome.numbers()) {
        (Action::Start | Action::Keys { .. }, Some([0, length, cursor, _, _, ending])) => {
            Position { buffer, state: State { length, cursor }, ending: ending as u8 }
        }
        _ => Position { buffer, ..left },
    }
}
