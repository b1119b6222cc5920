//! Situations that random runs must meet.

use super::blocks::{dimensions, length};
use super::call::{Action, Call};
use super::model::panes;
use super::moment::Moment;
use crate::port::{Port, Rectangle, WHOLE_SCREEN};
use std::collections::BTreeMap;

/// How often each situation was met. A kind's situations are known from
/// its first call on.
#[derive(Default)]
pub struct Situations {
    met: BTreeMap<&'static str, u64>,
    /// Takings that returned the mark of one line alone, by line.
    pub alone: [u64; 24],
}

impl Situations {
    /// How many there are, and which was met least often.
    pub fn summary(&self) -> String {
        match self.met.iter().min_by_key(|(_, &times)| times) {
            None => "none".to_string(),
            Some((name, times)) => {
                format!("{}, the rarest '{}' ({} times)", self.met.len(), name, times)
            }
        }
    }

    pub fn missing(&self) -> Vec<String> {
        let met = self.met.iter().map(|(name, &times)| (name.to_string(), times));
        let alone = self.alone.iter().enumerate();
        let alone = alone.map(|(line, &times)| (format!("take: line {} alone", line), times));
        met.chain(alone).filter(|(_, times)| *times == 0).map(|(name, _)| name).collect()
    }

    pub fn note(&mut self, name: &'static str, met: bool) {
        *self.met.entry(name).or_insert(0) += met as u64;
    }

    pub fn see(&mut self, now: &Moment) {
        self.see_marks(now);
        let zero = now.call.client == 0;
        match (&now.call.action, now.port()) {
            (Action::Open(pane), _) => {
                self.note("open: client 0", zero);
                self.see_open(now, *pane);
                self.see_illegal(*pane);
            }
            (Action::Close, _) => self.note("close: client 0", zero),
            (Action::Write(bytes), Some(port)) => self.see_write(now, port, bytes),
            (Action::Return(block), Some(port)) => self.see_return(port, block.len()),
            (Action::Restore(block), Some(port)) => self.see_restore(now, port, block),
            (Action::Write(_), None) => self.note("write: client 0", zero),
            (Action::Return(_), None) => self.note("return: client 0", zero),
            (Action::Restore(_), None) => self.note("restore: client 0", zero),
            (Action::Take, _) => {}
        }
    }

    fn see_open(&mut self, now: &Moment, pane: Rectangle) {
        let open = panes(&now.multiplexer);
        let near = |test: fn(Rectangle, Rectangle) -> bool| open.iter().any(|&at| test(pane, at));
        let opened = now.status == 0;
        let closed = matches!(now.before, Some((Call { action: Action::Close, .. }, 0)));
        self.note("open: 2 by 2", opened && dimensions(pane) == (2, 2));
        self.note("open: the whole screen", opened && pane == WHOLE_SCREEN);
        self.note("open: side by side", opened && near(beside));
        self.note("open: one above another", opened && near(above));
        self.note("open: one shared corner cell", now.status == 6 && near(share_one_cell));
        // The other three slots are taken, so it is that one.
        self.note("open: the slot just closed", opened && closed && open.len() == 3);
    }

    /// Panes that break one rule only.
    fn see_illegal(&mut self, pane: Rectangle) {
        let broken =
            [pane.left >= pane.right, pane.right > 79, pane.top >= pane.bottom, pane.bottom > 23];
        self.note("open: only left < right broken", broken == [true, false, false, false]);
        self.note("open: only right <= 79 broken", broken == [false, true, false, false]);
        self.note("open: only top < bottom broken", broken == [false, false, true, false]);
        self.note("open: only bottom <= 23 broken", broken == [false, false, false, true]);
    }

    fn see_write(&mut self, now: &Moment, port: &Port, bytes: &[u8]) {
        let other = now.before.map_or(false, |(call, _)| call.client != now.call.client);
        self.note("write: empty", bytes.is_empty());
        let goes_on = port.waiting != 0 && !bytes.is_empty();
        self.note("write: goes on with a command after another's call", goes_on && other);
    }

    fn see_return(&mut self, port: &Port, lent: usize) {
        let right = length(dimensions(port.state.viewport));
        self.note("return: empty block", lent == 0);
        self.note("return: one byte too few", lent + 1 == right);
        self.note("return: right length", lent == right);
        self.note("return: one byte more", lent == right + 1);
        self.note("return: much longer", lent > 2 * right);
    }

    fn see_restore(&mut self, now: &Moment, port: &Port, block: &[u8]) {
        let (width, height) = dimensions(port.state.viewport);
        let right = length((width, height));
        self.note("restore: empty block", block.is_empty());
        self.note("restore: one byte too few", block.len() + 1 == right);
        self.note("restore: one byte too many", block.len() == right + 1);
        self.note("restore: much longer", block.len() > 2 * right);
        let fits = block.len() == right;
        self.note("restore: only width wrong", fits && block[0] != width && block[1] == height);
        self.note("restore: only height wrong", fits && block[0] == width && block[1] != height);
        let again = match now.returned {
            Some((client, last)) => *client == now.call.client && last == block,
            None => false,
        };
        self.note("restore: the block just returned", now.status == 0 && again);
    }
}

/// Without a column between them, and with a line in common.
fn beside(one: Rectangle, other: Rectangle) -> bool {
    let lines = one.top.max(other.top) <= one.bottom.min(other.bottom);
    lines && (one.right + 1 == other.left || other.right + 1 == one.left)
}

/// Without a line between them, and with a column in common.
fn above(one: Rectangle, other: Rectangle) -> bool {
    let columns = one.left.max(other.left) <= one.right.min(other.right);
    columns && (one.bottom + 1 == other.top || other.bottom + 1 == one.top)
}

/// For panes of at least 2 by 2 it is a corner of both.
fn share_one_cell(one: Rectangle, other: Rectangle) -> bool {
    let column = one.left == other.right || one.right == other.left;
    let line = one.top == other.bottom || one.bottom == other.top;
    column && line
}
