//! A run of calls on a fresh multiplexer: what is lent to it, and what
//! the reference and the library make of it.

use super::answer::{self, Answer};
use super::call::Call;
use crate::library;
use crate::script::run_script;

#[derive(Clone)]
pub struct Run {
    /// The lent screen before the run, of any length.
    pub screen: Vec<u8>,
    pub calls: Vec<Call>,
    /// Bytes after the last call that begin with no whole call of a known
    /// kind, so that nothing of them is made.
    pub ending: Vec<u8>,
    /// How many bytes more are lent for the answers than all of them need;
    /// fewer if it is negative.
    pub spare: isize,
}

/// All that is lent, as it is after a run, and the length given back.
#[derive(PartialEq, Eq)]
pub struct Outcome {
    pub length: usize,
    pub answers: Vec<u8>,
    pub screen: Vec<u8>,
}

/// The bytes lent for answers, before the run.
const LENT: u8 = 0x5A;

impl Run {
    pub fn script(&self) -> Vec<u8> {
        let mut script = calls_script(&self.calls);
        script.extend_from_slice(&self.ending);
        script
    }

    pub fn answer_length(&self, call: &Call) -> usize {
        answer::length(call, self.screen.len())
    }

    /// How many bytes are lent for the answers.
    pub fn room(&self) -> usize {
        let all: usize = self.calls.iter().map(|call| self.answer_length(call)).sum();
        (all as isize + self.spare).max(0) as usize
    }

    /// The calls that are made: those before the first whose answer does
    /// not fit.
    pub fn served(&self) -> &[Call] {
        let mut room = self.room();
        for (place, call) in self.calls.iter().enumerate() {
            let length = self.answer_length(call);
            if length > room {
                return &self.calls[..place];
            }
            room -= length;
        }
        &self.calls
    }

    /// The answers of an outcome, call by call, as many as came back whole.
    pub fn answers<'a>(&self, outcome: &'a Outcome) -> Vec<Answer<'a>> {
        let mut answers = Vec::new();
        let mut start = 0;
        for call in self.served() {
            let end = start + self.answer_length(call);
            if outcome.length < end {
                break;
            }
            answers.push(Answer::new(call, &outcome.answers[start..end]));
            start = end;
        }
        answers
    }

    /// The reference has all the room that it needs, so it is handed only
    /// the calls that are to be made; the ending if these are all.
    pub fn by_reference(&self) -> Outcome {
        let served = self.served();
        let script = if served.len() < self.calls.len() { calls_script(served) } else { self.script() };
        let mut screen = self.screen.clone();
        let mut answers = run_script(&script, &mut screen);
        let length = answers.len();
        answers.resize(self.room(), LENT);
        Outcome { length, answers, screen }
    }

    pub fn by_library(&self) -> Outcome {
        let mut screen = self.screen.clone();
        let mut answers = vec![LENT; self.room()];
        let length = library::run_script(&self.script(), &mut screen, &mut answers);
        Outcome { length, answers, screen }
    }
}

fn calls_script(calls: &[Call]) -> Vec<u8> {
    calls.iter().map(Call::bytes).collect::<Vec<_>>().concat()
}
