//! The streams of random writes, often cut over several calls.

use super::generator::Generator;
use crate::generator::{mostly_codes, piece};
use crate::pieces::Builder;
use crate::port::Port;
use crate::rng::Rng;

impl Generator {
    /// What a client writes next: the rest of a stream that was cut, or a
    /// new one for its port; often not all of it. A rest is kept while
    /// others call, and even if the client is closed and opened again.
    pub fn part_of_a_stream(&mut self, client: u8, port: &Port) -> Vec<u8> {
        let mut bytes = match self.rests.remove(&client) {
            Some(rest) => rest,
            None => stream_for(port, &mut self.builder),
        };
        if bytes.len() > 1 && self.builder.rng.once_in(2) {
            let end = cut_place(&mut self.builder.rng, bytes.len());
            self.rests.insert(client, bytes.split_off(end));
        }
        bytes
    }
}

/// Anywhere, or near the end, where a command may have its parameters.
fn cut_place(rng: &mut Rng, length: usize) -> usize {
    let most = if rng.once_in(2) { length } else { length.min(5) };
    length - 1 - rng.below(most as u64 - 1) as usize
}

fn stream_for(port: &Port, builder: &mut Builder) -> Vec<u8> {
    builder.aim(port.home, port.state.viewport);
    match builder.rng.below(16) {
        0 => {}
        1 => builder.text_everywhere(),
        2 => mostly_codes(builder),
        3 => builder.command_cut_off(),
        4 | 5 => builder.viewport(),
        _ => {
            for _ in 0..1 + builder.rng.below(6) {
                piece(builder);
            }
        }
    }
    std::mem::take(&mut builder.stream)
}
