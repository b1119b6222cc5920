//! The generator of random runs, each from a seed and its number.

use super::call::{Action, Call};
use super::keys::keys;
use super::run::{Field, Run};
use super::sizes::{field, state};
use crate::field::State;
use crate::rng::Rng;

/// The run with this number; the same seed gives the same one.
pub fn run(seed: u64, number: u64) -> Run {
    let mut rng = Rng::new(seed, number);
    let (field, buffer) = field(&mut rng);
    let mut calls = Vec::new();
    if !rng.once_in(8) {
        calls.push(Call { action: Action::Start, spare: 0 });
    }
    for _ in 0..1 + rng.below(8) {
        calls.push(call(&mut rng, &field));
    }
    Run { field, buffer, calls }
}

fn call(rng: &mut Rng, field: &Field) -> Call {
    let action = match rng.below(10) {
        0 => Action::Start,
        1..=6 => Action::Keys { state: own_state(rng, field), keys: keys(rng, field) },
        _ => Action::Text { state: own_state(rng, field), ending: own_ending(rng) },
    };
    let spare = match action {
        // With room for a text where none is to be handed back.
        Action::Text { .. } if rng.once_in(2) => 1 + rng.below(16) as isize,
        _ => spare(rng),
    };
    Call { action, spare }
}

/// None mostly, for the state that was left.
fn own_state(rng: &mut Rng, field: &Field) -> Option<State> {
    rng.once_in(8).then(|| state(rng, field))
}

/// None often, for the ending that was left.
fn own_ending(rng: &mut Rng) -> Option<u8> {
    let any = rng.byte();
    rng.once_in(2).then(|| rng.pick(&[0x00, 0x0D, 0x0D, 0x1B, 0x1B, any]))
}

fn spare(rng: &mut Rng) -> isize {
    match rng.below(24) {
        0 => -1,
        1 => -(rng.below(8) as isize),
        2..=6 => 1 + rng.below(4) as isize,
        _ => 0,
    }
}
