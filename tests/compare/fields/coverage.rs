//! What random runs have reached, and what they should have but have not.

use super::cut::cut;
use super::effects::{Effects, Press};
use super::limits::Limits;
use super::moment::Moment;
use super::outcomes::faults;
use super::run::{Field, Step};
use super::situations::Situations;
use super::statuses::Statuses;
use super::subject::{Subject, NUMBERS};
use crate::field::State;

pub struct Coverage {
    statuses: Statuses,
    limits: Limits,
    effects: Effects,
    situations: Situations,
}

impl Coverage {
    pub fn new() -> Coverage {
        Coverage {
            statuses: Statuses::new(),
            limits: Limits::new(),
            effects: Effects::new(),
            situations: Situations::new(),
        }
    }

    /// Notes what a run's calls reach by the reference. Tells in words
    /// where it gives another status, text length or count of beeps than
    /// it should, or another outcome for keys that are cut, and where it
    /// changes what should stay.
    pub fn follow(&mut self, field: &Field, steps: &[Step]) -> Result<(), String> {
        for (place, step) in steps.iter().enumerate() {
            let now = Moment::new(field, step);
            self.see(&now).map_err(|fault| format!("{}: {}", step.name(place), fault))?;
        }
        Ok(())
    }

    fn see(&mut self, now: &Moment) -> Result<(), String> {
        let kind = now.step.call.kind();
        check_behind(now)?;
        self.limits.see(now);
        if kind == 2 {
            check_text(now)?;
        } else if now.lent() >= NUMBERS {
            check_status(now)?;
        } else {
            // Nothing is done, so nothing more is reached.
            return Ok(());
        }
        // A refusal shows in a text call only by the text held back.
        if kind != 2 || now.status() == 0 || now.would_show(now.ending()) {
            self.statuses.note(kind, &now.applying);
        }
        self.situations.see(now);
        self.follow_keys(now)
    }

    /// Notes each key that is read, by the keys cut.
    fn follow_keys(&mut self, now: &Moment) -> Result<(), String> {
        let mut judged = Ok(());
        let outcome = cut(Subject::Reference, now.field, now.step, |press, answer, buffer| {
            if answer[0] == 0 && judged.is_ok() {
                let noted = self.effects.note(press, answer[4]);
                judged = noted.and_then(|()| check_beep(press, answer, buffer));
            }
        });
        judged?;
        match outcome {
            Some(outcome) if outcome != now.step.outcome => {
                Err(format!("cut after every key, {}", faults(now.step, &outcome)))
            }
            _ => Ok(()),
        }
    }

    /// Prints each status reached, by kind of call, the keys and what they
    /// did, and what was reached least often.
    pub fn print(&self) {
        self.statuses.print();
        self.effects.print();
        let all = self.all();
        if let Some((name, times)) = all.iter().min_by_key(|(_, times)| times) {
            println!("to be reached: {}, the rarest '{}' ({} times)", all.len(), name, times);
        }
    }

    /// The names of all that should have been reached and was not.
    pub fn missing(&self) -> Vec<String> {
        self.all().into_iter().filter(|(_, times)| *times == 0).map(|(name, _)| name).collect()
    }

    /// All that should be reached, and how often it was.
    fn all(&self) -> Vec<(String, u64)> {
        let mut all = self.statuses.all();
        all.extend(self.limits.all());
        all.extend(self.effects.all());
        all.extend(self.situations.all());
        all
    }
}

fn check_status(now: &Moment) -> Result<(), String> {
    let (wanted, given) = (now.status(), now.step.outcome.answer[0]);
    if given == usize::from(wanted) {
        return Ok(());
    }
    Err(format!("status {} and not {}", given, wanted))
}

/// A text has no status; what shows a refusal is its length.
fn check_text(now: &Moment) -> Result<(), String> {
    let needed = now.text_length();
    let wanted = if now.lent() < needed { 0 } else { needed };
    let given = now.step.outcome.result;
    if given == wanted {
        return Ok(());
    }
    Err(format!("a text of {} bytes and not {}", given, wanted))
}

/// Whatever the call, the buffer stays from the maximum on.
fn check_behind(now: &Moment) -> Result<(), String> {
    let (before, after) = (&now.step.before.buffer, &now.step.outcome.buffer);
    match (now.field.maximum..before.len()).find(|&place| before[place] != after[place]) {
        None => Ok(()),
        Some(place) => Err(format!("byte {} of the buffer, past the maximum, changed", place)),
    }
}

/// A key that beeps changes neither the state nor the buffer.
fn check_beep(press: &Press, answer: &[usize], buffer: &[u8]) -> Result<(), String> {
    let State { length, cursor } = press.state;
    let state_stays = answer[1..3] == [length, cursor];
    if answer[4] == 0 || state_stays && buffer == press.buffer {
        return Ok(());
    }
    let changed = if state_stays { "buffer" } else { "state" };
    Err(format!(
        "key {:02x} beeped at length {}, cursor {}, but the {} changed",
        press.key, length, cursor, changed
    ))
}
