//! A call of a run as it is judged.

use super::call::Action;
use super::refusals::{broken, refusals, text_length};
use super::run::{Field, Step};

pub struct Moment<'a> {
    pub field: &'a Field,
    pub step: &'a Step<'a>,
    /// The refusals that apply, the smallest first.
    pub applying: Vec<u8>,
}

impl Moment<'_> {
    pub fn new<'a>(field: &'a Field, step: &'a Step<'a>) -> Moment<'a> {
        let applying = refusals(step.call.kind(), field, &step.before);
        Moment { field, step, applying }
    }

    /// The status to be given. A text gives none, but is empty unless
    /// this is 0.
    pub fn status(&self) -> u8 {
        self.applying.first().copied().unwrap_or(0)
    }

    pub fn text_length(&self) -> usize {
        text_length(self.field, &self.step.before)
    }

    pub fn length(&self) -> usize {
        self.step.before.state.length
    }

    pub fn cursor(&self) -> usize {
        self.step.before.state.cursor
    }

    pub fn ending(&self) -> u8 {
        self.step.before.ending
    }

    pub fn default(&self) -> usize {
        self.field.default.len()
    }

    pub fn buffer(&self) -> usize {
        self.step.before.buffer.len()
    }

    /// How many places were lent for the answer.
    pub fn lent(&self) -> usize {
        self.step.outcome.answer.len()
    }

    /// That the state breaks only this of its rules.
    pub fn breaks(&self, rule: usize) -> bool {
        let broken = broken(self.field, &self.step.before);
        (0..broken.len()).all(|other| broken[other] == (other == rule))
    }

    pub fn keys(&self) -> usize {
        self.step.call.keys().len()
    }

    pub fn keys_read(&self) -> usize {
        self.step.outcome.answer[3]
    }

    /// That the keys were ended by this one; by none if it is 0.
    pub fn ended_by(&self, ending: u8) -> bool {
        self.step.outcome.answer[5] == usize::from(ending)
    }

    /// That it reads keys from the state that an ending key left.
    pub fn goes_on_after(&self, ending: u8) -> bool {
        let left = matches!(self.step.call.action, Action::Keys { state: None, .. });
        left && self.step.last_ending == ending && self.keys_read() > 0
    }

    /// That the buffer is longer than the maximum, and changed.
    pub fn changes_longer(&self) -> bool {
        self.buffer() > self.field.maximum && self.step.before.buffer != self.step.outcome.buffer
    }

    /// That the text of an ending has bytes and the lent answer room for
    /// them, so that it would show where it is not to be handed back. The
    /// buffer has no text of a length past its own.
    pub fn would_show(&self, ending: u8) -> bool {
        let text = match ending {
            0x0D if self.length() <= self.buffer() => self.length(),
            0x1B => self.default(),
            _ => 0,
        };
        text > 0 && text <= self.lent()
    }
}
