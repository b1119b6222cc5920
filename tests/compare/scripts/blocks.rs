//! Blocks lent to block returns and restores: right ones, and others
//! that nearly are.

use crate::port::{Port, Rectangle};
use crate::rng::Rng;

/// The width and height of a rectangle.
pub fn dimensions(of: Rectangle) -> (u8, u8) {
    (of.right - of.left + 1, of.bottom - of.top + 1)
}

/// The length of a block with these dimensions.
pub fn length((width, height): (u8, u8)) -> usize {
    2 + width as usize * height as usize
}

/// A block for a return to fill: any bytes, about as many as needed.
pub fn to_fill(rng: &mut Rng, port: &Port) -> Vec<u8> {
    let needed = length(dimensions(port.state.viewport));
    let lent = length_near(rng, needed);
    rng.bytes(lent)
}

/// A block to restore: right, or wrong in its length or its dimensions.
pub fn to_restore(rng: &mut Rng, port: &Port) -> Vec<u8> {
    let (width, height) = dimensions(port.state.viewport);
    let mut block = filled(rng, (width, height));
    match rng.below(10) {
        0 => block[0] = number_near(rng, width),
        1 => block[1] = number_near(rng, height),
        2 => block.swap(0, 1),
        // As it would be if the viewport were the whole pane.
        3 => block = filled(rng, dimensions(port.home)),
        4..=7 => {
            let lent = length_near(rng, block.len());
            block.resize(lent, rng.byte());
        }
        _ => {}
    }
    block
}

/// The dimensions, then any cells.
fn filled(rng: &mut Rng, (width, height): (u8, u8)) -> Vec<u8> {
    let mut block = rng.bytes(length((width, height)));
    block[0] = width;
    block[1] = height;
    block
}

fn number_near(rng: &mut Rng, right: u8) -> u8 {
    let any = rng.byte();
    rng.pick(&[right - 1, right + 1, right + 128, 0, any])
}

/// The right length or one near it, none, any shorter one, or a much
/// longer one; now and then the longest that a script can lend.
fn length_near(rng: &mut Rng, right: usize) -> usize {
    match rng.below(12) {
        0 => 0,
        1 | 2 => right - 1,
        3 | 4 => right + 1,
        5 => rng.below(right as u64) as usize,
        6 if rng.once_in(50) => 65_535,
        6 => right + rng.below(300) as usize,
        _ => right,
    }
}
