//! Random streams of keys.

use super::run::Field;
use super::sizes::below;
use crate::rng::Rng;

/// Some bursts of keys. Few of them end the stream.
pub fn keys(rng: &mut Rng, field: &Field) -> Vec<u8> {
    let mut keys = Vec::new();
    for _ in 0..rng.below(10) {
        burst(rng, field, &mut keys);
    }
    keys
}

/// Keys of one kind: typed text, one move or delete several times, one
/// that changes all of the text, any key, or an ending one.
fn burst(rng: &mut Rng, field: &Field, keys: &mut Vec<u8>) {
    let times = times(rng, field);
    match rng.below(40) {
        0..=13 => keys.extend((0..times).map(|_| rng.between(0x20, 0x7E))),
        14..=18 => keys.extend(vec![0x08; times]),
        19..=23 => keys.extend(vec![0x15; times]),
        24..=28 => keys.extend(vec![rng.pick(&[0x04, 0x7F, 0x06]); times]),
        29..=31 => keys.push(rng.pick(&[0x18, 0x19, 0x19, 0x1A])),
        32..=34 => keys.extend((0..times).map(|_| rng.pick(&EDITING))),
        35..=38 => keys.push(rng.byte()),
        _ => keys.push(rng.pick(&[0x0D, 0x1B])),
    }
}

/// Keys that edit; `a` and `z` stand for all that print.
const EDITING: [u8; 10] = [b'a', b'z', 0x08, 0x15, 0x04, 0x7F, 0x06, 0x18, 0x19, 0x1A];

/// Few, or in a small field now and then one more than there is room for.
fn times(rng: &mut Rng, field: &Field) -> usize {
    let most = field.width.min(field.maximum);
    if most <= 12 && rng.once_in(4) || most <= 254 && rng.once_in(40) {
        return most + 1;
    }
    1 + below(rng, 4)
}
