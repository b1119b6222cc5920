//! Panes for openings: free ones, ones next to an open pane, and ones
//! that are not legal.

use crate::port::{Rectangle, WHOLE_SCREEN};
use crate::rng::Rng;

/// A pane to open while these are open.
pub fn pane(rng: &mut Rng, open: &[Rectangle]) -> Rectangle {
    let pane = match rng.below(8) {
        0..=3 => free(rng, open),
        4..=6 if !open.is_empty() => {
            let other = open[rng.below(open.len() as u64) as usize];
            next_to(rng, other)
        }
        _ => anywhere(rng),
    };
    if rng.once_in(6) {
        illegal(rng, pane)
    } else {
        pane
    }
}

/// Whether they have a column and a line in common.
pub fn share_a_cell(one: Rectangle, other: Rectangle) -> bool {
    one.left.max(other.left) <= one.right.min(other.right)
        && one.top.max(other.top) <= one.bottom.min(other.bottom)
}

/// A legal pane: of 2 by 2, small, medium, or any.
fn anywhere(rng: &mut Rng) -> Rectangle {
    let (most_columns, most_lines) = match rng.below(8) {
        0 | 1 => (1, 1),
        2..=4 => (8, 4),
        5 | 6 => (30, 10),
        _ if rng.once_in(4) => return WHOLE_SCREEN,
        _ => (79, 23),
    };
    let (left, right) = rng.interval(0, 79, most_columns);
    let (top, bottom) = rng.interval(0, 23, most_lines);
    Rectangle { left, top, right, bottom }
}

/// The first of some panes that shares no cell with an open one, or else
/// the last of them.
fn free(rng: &mut Rng, open: &[Rectangle]) -> Rectangle {
    let mut pane = anywhere(rng);
    for _ in 0..8 {
        if !open.iter().any(|&other| share_a_cell(pane, other)) {
            break;
        }
        pane = anywhere(rng);
    }
    pane
}

/// Touches the other one or shares its edge or corner, as chance has it.
fn next_to(rng: &mut Rng, other: Rectangle) -> Rectangle {
    let (left, right) = interval_next_to(rng, (other.left, other.right), 79);
    let (top, bottom) = interval_next_to(rng, (other.top, other.bottom), 23);
    Rectangle { left, top, right, bottom }
}

/// A first and a last place up to `end` that end just before another such
/// pair or at its first, begin at its last or just after it, are the same,
/// or lie anywhere, as they do where there is no room.
fn interval_next_to(rng: &mut Rng, (first, last): (u8, u8), end: u8) -> (u8, u8) {
    let more = rng.pick(&[1, 1, 2, 6, 20]);
    match rng.below(7) {
        0 if first >= 2 => ((first - 1).saturating_sub(more), first - 1),
        1 if first >= 1 => (first.saturating_sub(more), first),
        2 if last < end => (last, (last + more).min(end)),
        3 if last + 1 < end => (last + 1, (last + 1 + more).min(end)),
        4 => (first, last),
        _ => rng.interval(0, end, more),
    }
}

/// Not legal: mostly by one rule only, at its limit or far from it.
fn illegal(rng: &mut Rng, pane: Rectangle) -> Rectangle {
    let Rectangle { left, top, right, bottom } = pane;
    match rng.below(9) {
        0 => Rectangle { right: left, ..pane },
        1 => Rectangle { left: right, right: left, ..pane },
        2 => Rectangle { right: 80, ..pane },
        3 => Rectangle { right: rng.between(80, 255), ..pane },
        4 => Rectangle { bottom: top, ..pane },
        5 => Rectangle { top: bottom, bottom: top, ..pane },
        6 => Rectangle { bottom: 24, ..pane },
        7 => Rectangle { bottom: rng.between(24, 255), ..pane },
        _ => Rectangle { left: rng.byte(), top: rng.byte(), right: rng.byte(), bottom: rng.byte() },
    }
}
