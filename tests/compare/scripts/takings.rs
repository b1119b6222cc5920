//! Random takings of marks, and closings.

use super::call::Action;
use super::generator::Generator;
use super::model::{clients, port};

impl Generator {
    /// Then now and then a second taking, takings of every open client, or
    /// one byte written, so that what it marks shows alone.
    pub fn take(&mut self, client: u8) {
        self.make(client, Action::Take);
        match self.builder.rng.below(8) {
            0 => self.make(client, Action::Take),
            1 | 2 => {
                for client in clients(&self.model.multiplexer) {
                    self.make(client, Action::Take);
                }
            }
            3 | 4 => {
                let byte = self.builder.rng.byte();
                self.make(client, Action::Write(vec![byte]));
            }
            _ => {}
        }
    }

    /// Often: an opening marks all lines of the pane, and while they are
    /// marked no later mark shows.
    pub fn take_after_opening(&mut self, client: u8) {
        let open = port(&self.model.multiplexer, client).is_some();
        if open && self.builder.rng.once_in(2) {
            self.make(client, Action::Take);
        }
    }

    /// Now and then a taking follows, which is refused.
    pub fn close(&mut self, client: u8) {
        self.make(client, Action::Close);
        if self.builder.rng.once_in(8) {
            self.make(client, Action::Take);
        }
    }
}
