//! The generator of random runs, each from a seed and its number.
//!
//! Each call is made on the reference's multiplexer as soon as it is
//! written, so it is known what is open, and most calls mean something.

use super::blocks;
use super::call::{Action, Call};
use super::model::{clients, panes, port, Model};
use super::panes::pane;
use super::run::Run;
use super::surroundings::{ending, lent_screen};
use crate::pieces::{Builder, SHOW};
use crate::port::{Port, Rectangle, SCREEN_SIZE};
use crate::rng::Rng;
use std::collections::BTreeMap;

pub struct Generator {
    pub builder: Builder,
    /// Numbers for clients, all different: few, so that one that was
    /// closed is soon opened again.
    names: [u8; 6],
    pub model: Model,
    calls: Vec<Call>,
    /// What is still to be written of a stream that was cut, by client.
    pub rests: BTreeMap<u8, Vec<u8>>,
    /// The block that was last returned to a client.
    returned: BTreeMap<u8, Vec<u8>>,
}

/// The run with this number; the same seed gives the same one.
pub fn run(seed: u64, number: u64) -> Run {
    let mut rng = Rng::new(seed, number);
    let screen = lent_screen(&mut rng);
    let mut generator = Generator::new(rng, screen.clone());
    for _ in 0..generator.builder.rng.below(40) {
        generator.any_call();
    }
    for client in clients(&generator.model.multiplexer) {
        generator.show(client);
    }
    let (ending, spare) = ending(&mut generator.builder.rng, &generator.calls);
    Run { screen, calls: generator.calls, ending, spare }
}

impl Generator {
    fn new(mut rng: Rng, screen: Vec<u8>) -> Generator {
        let (low, middle) = (rng.between(2, 85), rng.between(86, 169));
        let names = [1, low, middle, rng.between(170, 253), 254, 255];
        Generator {
            builder: Builder::new(rng),
            names,
            model: Model::new(screen),
            calls: Vec::new(),
            rests: BTreeMap::new(),
            returned: BTreeMap::new(),
        }
    }

    /// The fewer clients are open, the more openings.
    fn any_call(&mut self) {
        let openings = match clients(&self.model.multiplexer).len() {
            0 => 16,
            1 => 8,
            2 => 6,
            _ => 4,
        };
        if self.builder.rng.below(24) < openings {
            self.open();
            return;
        }
        let client = self.any_client();
        match self.builder.rng.below(17) {
            0 => self.close(client),
            1..=3 => self.block_return(client),
            4..=6 => self.block_restore(client),
            7..=9 => self.take(client),
            _ => self.write(client),
        }
    }

    /// Mostly an open one; 0 and one that is not open now and then.
    fn any_client(&mut self) -> u8 {
        let open = clients(&self.model.multiplexer);
        match self.builder.rng.below(14) {
            0 => 0,
            1 => self.builder.rng.byte(),
            2..=13 if !open.is_empty() => self.builder.rng.pick(&open),
            _ => self.builder.rng.pick(&self.names),
        }
    }

    /// Mostly for a client that is not open.
    fn open(&mut self) {
        let open = clients(&self.model.multiplexer);
        let client = match self.builder.rng.below(12) {
            0 => 0,
            1 => self.builder.rng.byte(),
            2 if !open.is_empty() => self.builder.rng.pick(&open),
            _ => {
                let mut free = self.names.to_vec();
                free.retain(|name| !open.contains(name));
                self.builder.rng.pick(&free)
            }
        };
        let pane = pane(&mut self.builder.rng, &panes(&self.model.multiplexer));
        self.make(client, Action::Open(pane));
        self.take_after_opening(client);
    }

    fn write(&mut self, client: u8) {
        let port = self.port(client);
        let bytes = self.part_of_a_stream(client, &port);
        self.make(client, Action::Write(bytes));
    }

    fn block_return(&mut self, client: u8) {
        let port = self.port(client);
        let block = blocks::to_fill(&mut self.builder.rng, &port);
        self.make(client, Action::Return(block));
    }

    /// Now and then of the block that the client was last handed.
    fn block_restore(&mut self, client: u8) {
        let port = self.port(client);
        let block = match self.returned.get(&client) {
            Some(block) if self.builder.rng.once_in(3) => block.clone(),
            _ => blocks::to_restore(&mut self.builder.rng, &port),
        };
        self.make(client, Action::Restore(block));
    }

    /// A client's port, or where it is not open one that stands in for it.
    fn port(&self, client: u8) -> Port {
        match port(&self.model.multiplexer, client) {
            Some(port) => *port,
            None => Port::fresh_in(Rectangle { left: 0, top: 0, right: 1, bottom: 1 }),
        }
    }

    pub fn make(&mut self, client: u8, action: Action) {
        let call = Call { client, action };
        let (status, block) = self.model.make(&call);
        if call.kind() == 3 && status == 0 {
            self.returned.insert(client, block);
        }
        self.calls.push(call);
    }

    /// Calls that bring a port's hidden state to the screen: what is in
    /// use, then what is saved. A returned block shows the viewport.
    fn show(&mut self, client: u8) {
        for stream in [SHOW.to_vec(), [&[0x04], &SHOW[..]].concat()] {
            self.make(client, Action::Write(stream));
            self.make(client, Action::Return(vec![0; 2 + SCREEN_SIZE]));
        }
    }
}
