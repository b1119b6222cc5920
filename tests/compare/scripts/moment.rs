//! A call of a run in its surroundings.

use super::call::Call;
use super::model::port;
use crate::multiplexer::Multiplexer;
use crate::port::Port;

/// A call, its status, what was there before it, and what it left.
pub struct Moment<'a> {
    pub call: &'a Call,
    pub status: u8,
    pub multiplexer: Multiplexer,
    pub screen: &'a [u8],
    /// The call before, and its status.
    pub before: Option<(&'a Call, u8)>,
    /// The last block that was returned, and to which client.
    pub returned: &'a Option<(u8, Vec<u8>)>,
    /// The marks that each slot held when it was last closed.
    pub left: [u32; 4],
    pub after: Multiplexer,
    /// The screen lines on which the call changed a cell.
    pub changed: u32,
}

impl Moment<'_> {
    /// The client's port before the call, where it is open.
    pub fn port(&self) -> Option<&Port> {
        port(&self.multiplexer, self.call.client)
    }

    /// The same after the call.
    pub fn port_after(&self) -> Option<&Port> {
        port(&self.after, self.call.client)
    }
}
