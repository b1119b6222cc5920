//! The sizes of random fields, at and past their limits.

use super::run::Field;
use crate::field::State;
use crate::rng::Rng;

/// Widths and maxima at, just past and far past the limits.
pub const EDGES: [usize; 8] = [0, 1, 2, 253, 254, 255, 256, usize::MAX];

/// No text and no buffer is made longer than this and a few bytes more.
const LONGEST: usize = 300;

/// A field and a buffer for it, mostly ones that are not refused.
pub fn field(rng: &mut Rng) -> (Field, Vec<u8>) {
    let wild = rng.once_in(12);
    let (width, maximum) = (size(rng, wild), size(rng, wild));
    let default = default_length(rng, width, maximum);
    let buffer = buffer_length(rng, maximum);
    (Field { width, maximum, default: rng.bytes(default) }, rng.bytes(buffer))
}

/// Mostly small, so that edges are met often; if it is wild, an edge.
fn size(rng: &mut Rng, wild: bool) -> usize {
    match rng.below(20) {
        0..=9 if wild => EDGES[below(rng, EDGES.len())],
        0 => [1, 2, 253, 254][below(rng, 4)],
        1 if rng.once_in(4) => 1 + below(rng, 254),
        _ => 1 + below(rng, 12),
    }
}

fn default_length(rng: &mut Rng, width: usize, maximum: usize) -> usize {
    let most = maximum.min(LONGEST);
    match rng.below(20) {
        0 => most + 1,
        1 if rng.once_in(4) => most + below(rng, 5),
        2 | 3 => 0,
        4 | 5 => most,
        6 | 7 => width.min(most),
        8 | 9 => width.saturating_add(1).min(most),
        _ => below(rng, most + 1),
    }
}

fn buffer_length(rng: &mut Rng, maximum: usize) -> usize {
    let most = maximum.min(LONGEST);
    match rng.below(40) {
        0 => 0,
        1 => most.saturating_sub(1),
        2 => below(rng, most + 1),
        3..=19 => most + 1 + below(rng, 4),
        _ => most,
    }
}

/// A state for a field, at, near or far past its limits.
pub fn state(rng: &mut Rng, field: &Field) -> State {
    let length = near(rng, field.maximum);
    let limit = if rng.once_in(2) { length } else { field.width };
    State { length, cursor: near(rng, limit) }
}

fn near(rng: &mut Rng, limit: usize) -> usize {
    match rng.below(16) {
        0 => usize::MAX,
        1 => limit.saturating_add(1),
        2 => 0,
        3..=5 => limit,
        6 | 7 => limit.saturating_sub(1),
        _ => below(rng, limit.min(LONGEST) + 1),
    }
}

pub fn below(rng: &mut Rng, bound: usize) -> usize {
    rng.below(bound as u64) as usize
}
