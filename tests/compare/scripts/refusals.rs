//! Which refusals apply to a call, each judged by itself, and which a
//! script can reach.
//!
//! 2 is not among them: a run starts with a fresh multiplexer, and it is
//! proved that every call leaves a valid one valid.

use super::blocks::{dimensions, length};
use super::call::{Action, Call};
use super::model::{clients, panes, port};
use super::panes::share_a_cell;
use crate::multiplexer::Multiplexer;
use crate::port::{Port, SCREEN_SIZE};

/// The statuses that a script can reach, by kind of call.
pub const REACHABLE: [&[u8]; 6] =
    [&[0, 1, 3, 4, 5, 6, 7], &[0, 8], &[0, 1, 8], &[0, 1, 8, 9], &[0, 1, 8, 10], &[0, 8]];

/// The refusals that a script can make apply at once, by kind of call.
/// Client 0 is never open. On a screen that is refused nothing is open.
pub const TOGETHER: [&[(u8, u8)]; 6] = [
    &[(1, 3), (1, 4), (3, 4), (3, 6), (3, 7), (4, 5), (4, 6), (4, 7), (5, 6), (5, 7), (6, 7)],
    &[],
    &[(1, 8)],
    &[(1, 8), (1, 9), (8, 9)],
    &[(1, 8), (1, 10), (8, 10)],
    &[],
];

/// All that apply, the smallest first, which is the one to be given.
pub fn refusals(call: &Call, multiplexer: &Multiplexer, screen_length: usize) -> Vec<u8> {
    let port = port(multiplexer, call.client);
    let screen = (1, screen_length != SCREEN_SIZE);
    let not_open = (8, port.is_none());
    let asked = match &call.action {
        Action::Open(pane) => vec![
            screen,
            (3, call.client == 0),
            (4, !pane.legal()),
            (5, port.is_some()),
            (6, panes(multiplexer).iter().any(|&other| share_a_cell(*pane, other))),
            (7, clients(multiplexer).len() == 4),
        ],
        Action::Close | Action::Take => vec![not_open],
        Action::Write(_) => vec![screen, not_open],
        Action::Return(block) => vec![screen, not_open, (9, too_short(block, port))],
        Action::Restore(block) => vec![screen, not_open, (10, unfit(block, port))],
    };
    asked.iter().filter(|(_, applies)| *applies).map(|(number, _)| *number).collect()
}

/// Too short for the viewport; without a port, for any viewport.
fn too_short(block: &[u8], port: Option<&Port>) -> bool {
    let smallest = port.map_or((2, 2), |port| dimensions(port.state.viewport));
    block.len() < length(smallest)
}

/// Not of the viewport's dimensions; without a port, of none that there are.
fn unfit(block: &[u8], port: Option<&Port>) -> bool {
    if block.len() < length((2, 2)) {
        return true;
    }
    let given = (block[0], block[1]);
    block.len() != length(given)
        || port.map_or(false, |port| given != dimensions(port.state.viewport))
}
