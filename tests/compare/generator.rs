//! Random streams of all kinds, each from a seed and its number.

use crate::pairs::CONTROL_PAIRS;
use crate::pieces::{Builder, SHOW};
use crate::rng::Rng;

/// The stream with this number; the same seed gives the same one. It may
/// end in a command cut off, or show what the port hides or has saved.
///
/// A stream in pieces has the pair of control code and flags of its number
/// modulo 1024. Of the numbers n and n + 1024 at least one is made in
/// pieces, so 2048 streams reach every such pair. Printing codes in each
/// mode are left to chance: a run that misses one fails.
pub fn stream(seed: u64, number: u64) -> Vec<u8> {
    let mut builder = Builder::new(Rng::new(seed, number));
    match number % 11 {
        0 => plain_bytes(&mut builder),
        5 => mostly_codes(&mut builder),
        _ => in_pieces(&mut builder, number % CONTROL_PAIRS as u64),
    }
    match builder.rng.below(4) {
        0 => builder.command_cut_off(),
        1 => builder.stream.extend_from_slice(&SHOW),
        2 => builder.stream.extend([0x04].iter().chain(&SHOW)),
        _ => {}
    }
    builder.stream
}

fn plain_bytes(builder: &mut Builder) {
    for _ in 0..builder.rng.below(500) {
        let byte = builder.rng.byte();
        builder.stream.push(byte);
    }
}

pub fn mostly_codes(builder: &mut Builder) {
    for _ in 0..builder.rng.below(120) {
        let byte = if builder.rng.once_in(3) {
            builder.rng.byte()
        } else {
            builder.rng.between(0x00, 0x1F)
        };
        builder.stream.push(byte);
    }
}

/// Text to see changes by, often a viewport and flags, then some pieces
/// with the pair among them. No command waits between two pieces. Few
/// pieces are more frequent than many, as a later may hide an earlier.
fn in_pieces(builder: &mut Builder, pair: u64) {
    match builder.rng.below(5) {
        0 => {}
        1 => builder.text(90),
        2 => builder.text(700),
        _ => builder.text_everywhere(),
    }
    if !builder.rng.once_in(4) {
        builder.viewport();
        if builder.rng.once_in(2) {
            builder.text(60);
        }
    }
    if !builder.rng.once_in(4) {
        builder.flags();
    }
    let most = 1 + builder.rng.below(40);
    let pieces = 1 + builder.rng.below(most);
    let pair_at = builder.rng.below(pieces);
    for place in 0..pieces {
        if place == pair_at {
            builder.pair(pair);
        } else {
            piece(builder);
        }
    }
}

/// One piece after which no command waits, if none waited before.
pub fn piece(builder: &mut Builder) {
    match builder.rng.below(20) {
        0 | 1 => builder.text(30),
        2 => builder.flags(),
        3 => builder.viewport(),
        4 => builder.dle_flood(),
        5 | 6 => builder.shift(),
        7..=9 => builder.moves_at_an_edge(),
        10 => builder.saves_and_restores(),
        11 => builder.mode_and_text(),
        12 => builder.place_cursor(),
        13 | 14 => builder.erase_or_scroll(),
        15 => builder.bad_command(),
        16 => builder.bad_viewport(),
        _ => builder.any_command(),
    }
}
