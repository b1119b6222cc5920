//! Puts a projector's takings into a run.

use crate::scripts::answer::Answer;
use crate::scripts::call::{Action, Call};
use crate::scripts::run::{Outcome, Run};
use std::collections::BTreeSet;

/// A run with takings put in, and when the projector copies.
pub struct Watched {
    pub run: Run,
    pub frames: Vec<Frame>,
}

/// The projector copies after some takings, which follow a call.
pub struct Frame {
    /// The call's number in the run without takings, from 1.
    pub number: usize,
    /// Its place in the run with takings.
    pub call: usize,
    /// How many calls of that run are made when the projector copies.
    pub made: usize,
}

/// After so many calls each, and after the last, the marks of every open
/// client are taken; before each closing those of the client that is to be
/// closed. Which are open is known by the library's statuses alone. Tells
/// in words if there are not as many as calls.
pub fn with_takings(run: &Run, pace: usize) -> Result<Watched, String> {
    let mut calls = Vec::new();
    let mut frames = Vec::new();
    let mut open = BTreeSet::new();
    for (place, (call, status)) in run.calls.iter().zip(statuses(run)?).enumerate() {
        if matches!(call.action, Action::Close) && open.contains(&call.client) {
            calls.push(taking(call.client));
        }
        calls.push(call.clone());
        match (&call.action, status) {
            (Action::Open(_), 0) => open.insert(call.client),
            (Action::Close, 0) => open.remove(&call.client),
            _ => false,
        };
        let (number, at) = (place + 1, calls.len() - 1);
        if number % pace == 0 || number == run.calls.len() {
            calls.extend(open.iter().map(|&client| taking(client)));
            frames.push(Frame { number, call: at, made: calls.len() });
        }
    }
    Ok(Watched { run: Run { calls, ..run.clone() }, frames })
}

fn taking(client: u8) -> Call {
    Call { client, action: Action::Take }
}

/// The status of each call in the run as it is.
fn statuses(run: &Run) -> Result<Vec<u8>, String> {
    let outcome = run.by_library();
    Ok(answers(run, &outcome)?.iter().map(|answer| answer.status).collect())
}

/// The answers of a run, if every call is answered.
pub fn answers<'a>(run: &Run, outcome: &'a Outcome) -> Result<Vec<Answer<'a>>, String> {
    let answers = run.answers(outcome);
    if answers.len() == run.calls.len() {
        return Ok(answers);
    }
    Err(format!("only {} of {} calls are answered", answers.len(), run.calls.len()))
}
