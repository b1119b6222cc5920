//! What random runs have reached, and what they should have but have not.

use super::call::{Action, KINDS};
use super::codes::Codes;
use super::model::{place, Model};
use super::moment::Moment;
use super::refusals::{refusals, REACHABLE, TOGETHER};
use super::run::Run;
use super::situations::Situations;
use crate::lines::{differing, in_words};

/// How often each was reached.
#[derive(Default)]
pub struct Coverage {
    /// By kind and status.
    statuses: [[u64; 11]; 6],
    /// By kind and two refusals that apply at once, the smaller first.
    together: [[[u64; 11]; 11]; 6],
    codes: Codes,
    situations: Situations,
}

impl Coverage {
    /// Makes a run's calls on the reference's multiplexer and notes what
    /// they reach. Tells in words where the reference does not give the
    /// smallest refusal that applies, or leaves out a mark.
    pub fn follow(&mut self, run: &Run) -> Result<(), String> {
        let mut model = Model::new(run.screen.clone());
        let mut before = None;
        let mut returned = None;
        let mut left = [0; 4];
        for call in run.served() {
            let multiplexer = model.multiplexer;
            let screen = &model.screen.clone();
            let (status, block) = model.make(call);
            self.see(&Moment {
                call,
                status,
                multiplexer,
                screen,
                before,
                returned: &returned,
                left,
                after: model.multiplexer,
                changed: differing(screen, &model.screen),
            })?;
            before = Some((call, status));
            match (&call.action, place(&multiplexer, call.client)) {
                (Action::Return(_), _) if status == 0 => returned = Some((call.client, block)),
                (Action::Close, Some(place)) => left[place] = multiplexer.slots[place].port.marks,
                _ => {}
            }
        }
        Ok(())
    }

    fn see(&mut self, now: &Moment) -> Result<(), String> {
        let applying = refusals(now.call, &now.multiplexer, now.screen.len());
        let smallest = applying.first().copied().unwrap_or(0);
        if now.status != smallest {
            return Err(format!("status {} and not {} for {}", now.status, smallest, now.call));
        }
        check_marks(now)?;
        self.note_statuses(now.call.kind(), now.status, &applying);
        if let (Action::Write(bytes), Some(port)) = (&now.call.action, now.port()) {
            self.codes.follow(port, now.screen, bytes);
        }
        self.situations.see(now);
        Ok(())
    }

    fn note_statuses(&mut self, kind: usize, status: u8, applying: &[u8]) {
        self.statuses[kind][status as usize] += 1;
        for (place, &smaller) in applying.iter().enumerate() {
            for &larger in &applying[place + 1..] {
                self.together[kind][smaller as usize][larger as usize] += 1;
            }
        }
    }

    /// Prints each status reached, by kind of call.
    pub fn print(&self) {
        for (kind, statuses) in KINDS.iter().zip(self.statuses) {
            let reached: Vec<String> = statuses
                .iter()
                .enumerate()
                .filter(|(_, &times)| times > 0)
                .map(|(status, times)| format!("{} ({} times)", status, times))
                .collect();
            println!("{}: status {}", kind, reached.join(", "));
        }
        println!("situations: {}", self.situations.summary());
    }

    /// The names of all that should have been reached and was not.
    pub fn missing(&self) -> Vec<String> {
        let mut missing = Vec::new();
        for (kind, name) in KINDS.iter().enumerate() {
            for &status in REACHABLE[kind] {
                if self.statuses[kind][status as usize] == 0 {
                    missing.push(format!("{}: status {}", name, status));
                }
            }
            for &(smaller, larger) in TOGETHER[kind] {
                if self.together[kind][smaller as usize][larger as usize] == 0 {
                    missing.push(format!("{}: refusals {} and {} at once", name, smaller, larger));
                }
            }
        }
        missing.extend(self.codes.missing());
        missing.extend(self.situations.missing());
        missing
    }
}

/// Each line on which a cell changed must be marked.
fn check_marks(now: &Moment) -> Result<(), String> {
    let unmarked = now.changed & !now.port_after().map_or(0, |port| port.marks);
    if unmarked == 0 {
        return Ok(());
    }
    Err(format!("no mark of lines {}, which changed, for {}", in_words(unmarked), now.call))
}
