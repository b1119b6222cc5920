//! Situations about marks that random runs must meet.

use super::call::{Action, Call};
use super::model::place;
use super::moment::Moment;
use super::situations::Situations;
use crate::lines::{lines_of, ALL_LINES};
use crate::multiplexer::Multiplexer;
use crate::port::{Port, Rectangle};

impl Situations {
    pub fn see_marks(&mut self, now: &Moment) {
        let served = now.status == 0;
        match (&now.call.action, now.port()) {
            (Action::Open(pane), _) if served => self.see_opened(now, *pane),
            (Action::Close, Some(port)) => {
                self.note("close: marks not taken", port.marks != 0);
                self.note("close: no marks left", port.marks == 0);
            }
            (Action::Return(_), Some(port)) if served => {
                self.note("return: marks held", port.marks != 0);
                self.note("return: no marks held", port.marks == 0);
            }
            (Action::Restore(_), Some(port)) if !served => {
                self.note("restore: refused with no marks held", port.marks == 0);
            }
            (Action::Take, Some(port)) => self.see_taking(now, port),
            (Action::Take, None) => self.see_refused_taking(now),
            _ => {}
        }
        if let (Some(before), Some(after)) = (now.port(), now.port_after()) {
            self.see_stores(now, before, after);
        }
        self.see_slots(&now.after);
    }

    fn see_taking(&mut self, now: &Moment, port: &Port) {
        let marks = port.marks;
        let others = others(&now.multiplexer, now.call.client);
        // Adding the lowest line carries through all lines next to it.
        let gap = marks & (marks + (marks & marks.wrapping_neg())) != 0;
        let again = matches!(now.before, Some((Call { client, action: Action::Take }, 0))
            if *client == now.call.client);
        self.note("take: no line marked", marks == 0);
        self.note("take: some lines marked", marks != 0 && marks != ALL_LINES);
        self.note("take: all 24 lines marked", marks == ALL_LINES);
        self.note("take: lines that are not in a row", gap);
        self.note("take: marks outside the viewport", outside_viewport(port) != 0);
        self.note("take: in the midst of a command", marks != 0 && port.waiting != 0);
        self.note("take: while another has marked the same line", marks & others != 0);
        self.note("take: twice in a row", again);
        for (line, times) in self.alone.iter_mut().enumerate() {
            *times += (marks == 1 << line) as u64;
        }
    }

    fn see_refused_taking(&mut self, now: &Moment) {
        let closed = matches!(now.before, Some((Call { client, action: Action::Close }, 0))
            if *client == now.call.client);
        let others = others(&now.multiplexer, now.call.client);
        self.note("take: client 0", now.call.client == 0);
        self.note("take: refused while another holds marks", others != 0);
        self.note("take: the client just closed", closed);
    }

    fn see_opened(&mut self, now: &Moment, pane: Rectangle) {
        let others = others(&now.multiplexer, now.call.client);
        let left = place(&now.after, now.call.client).map_or(0, |place| now.left[place]);
        self.note("open: marks a line that another has marked", lines_of(pane) & others != 0);
        self.note("open: a slot closed with other lines marked", left & !lines_of(pane) != 0);
    }

    /// What a write or a restore marks that was not marked.
    fn see_stores(&mut self, now: &Moment, before: &Port, after: &Port) {
        let marked = after.marks & !before.marks;
        let same = marked & !now.changed != 0;
        let moved = before.state.viewport != after.state.viewport;
        match &now.call.action {
            Action::Write(bytes) => {
                let nothing = !bytes.is_empty() && after.marks == 0;
                self.note("write: no line marked", nothing);
                self.note("write: marks a line whose cells stay", same);
                let outside = outside_viewport(after) & before.marks != 0;
                self.note("write: leaves marks outside a new viewport", moved && outside);
            }
            Action::Restore(_) if now.status == 0 => {
                self.note("restore: marks lines", marked != 0);
                self.note("restore: marks a line whose cells stay", same);
                let part = lines_of(after.home) & !after.marks != 0;
                self.note("restore: marks a part of the pane's lines", marked != 0 && part);
            }
            _ => {}
        }
    }

    /// Whatever the call.
    fn see_slots(&mut self, after: &Multiplexer) {
        let mut held: Vec<u32> = after.slots.iter().map(|slot| slot.port.marks).collect();
        held.retain(|&marks| marks != 0);
        held.sort_unstable();
        held.dedup();
        self.note("any call: several slots hold different marks", held.len() > 1);
        self.note("any call: all four slots hold different marks", held.len() == 4);
    }
}

fn outside_viewport(port: &Port) -> u32 {
    port.marks & !lines_of(port.state.viewport)
}

/// The lines marked by other clients.
fn others(multiplexer: &Multiplexer, client: u8) -> u32 {
    let other = multiplexer.slots.iter().filter(|slot| slot.client != client);
    other.fold(0, |lines, slot| lines | slot.port.marks)
}
