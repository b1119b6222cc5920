//! The model that calls are made on: the reference's multiplexer and the
//! lent screen.

use super::call::{Action, Call};
use crate::multiplexer::{self, Multiplexer};
use crate::port::{Port, Rectangle};

pub struct Model {
    pub multiplexer: Multiplexer,
    pub screen: Vec<u8>,
}

impl Model {
    /// A fresh multiplexer.
    pub fn new(screen: Vec<u8>) -> Model {
        Model { multiplexer: Multiplexer::fresh(), screen }
    }

    /// Makes a call and gives its status, and the block that a return filled.
    pub fn make(&mut self, call: &Call) -> (u8, Vec<u8>) {
        let (multiplexer, client, screen) = (self.multiplexer, call.client, &mut self.screen);
        let mut block = Vec::new();
        let (status, after, count) = match &call.action {
            Action::Open(pane) => multiplexer::open(multiplexer, screen, client, *pane),
            Action::Close => multiplexer::close(multiplexer, client),
            Action::Write(bytes) => multiplexer::write(multiplexer, screen, client, bytes),
            Action::Return(lent) => {
                block = lent.clone();
                multiplexer::block_return(multiplexer, screen, client, &mut block)
            }
            Action::Restore(lent) => multiplexer::block_restore(multiplexer, screen, client, lent),
            Action::Take => {
                let (status, after, _, count) = multiplexer::take_marks(multiplexer, client);
                (status, after, count)
            }
        };
        self.multiplexer = after;
        block.truncate(count);
        (status, block)
    }
}

/// The open clients.
pub fn clients(multiplexer: &Multiplexer) -> Vec<u8> {
    multiplexer.slots.iter().map(|slot| slot.client).filter(|&client| client != 0).collect()
}

/// Their panes, in the same order.
pub fn panes(multiplexer: &Multiplexer) -> Vec<Rectangle> {
    multiplexer.slots.iter().filter(|slot| slot.client != 0).map(|slot| slot.port.home).collect()
}

/// Which slot is an open client's; 0 never has one.
pub fn place(multiplexer: &Multiplexer, client: u8) -> Option<usize> {
    multiplexer.slots.iter().position(|slot| slot.client != 0 && slot.client == client)
}

/// The port of an open client.
pub fn port(multiplexer: &Multiplexer, client: u8) -> Option<&Port> {
    place(multiplexer, client).map(|place| &multiplexer.slots[place].port)
}
