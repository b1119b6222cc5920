//! The multiplexer, paper 01's wall: one screen shared by up to four ports,
//! each in its own pane.
//!
//! As with a port, every field is a plain number or truth value, so a
//! host can hand in an invalid multiplexer; `Multiplexer::valid` tells the
//! two apart.

use crate::block;
use crate::cells::erase;
use crate::console;
use crate::port::{Cursor, Port, Rectangle, NOTHING_SAVED, SCREEN_SIZE};

/// Paper 01's seat: a client, which is its bench number, and the client's
/// port, whose home is the pane. Clients are 1 to 255, so 0 marks a free
/// slot.
#[derive(Clone, Copy, Debug, PartialEq, Eq)]
pub struct Slot {
    pub client: u8,
    pub port: Port,
}

#[derive(Clone, Copy, Debug, PartialEq, Eq)]
pub struct Multiplexer {
    pub slots: [Slot; 4],
}

/// Every field of a free slot is 0 or false, as are those of a state
/// that carries nothing.
const FREE_SLOT: Slot = Slot {
    client: 0,
    port: Port {
        home: Rectangle { left: 0, top: 0, right: 0, bottom: 0 },
        state: NOTHING_SAVED,
        has_saved: false,
        saved: NOTHING_SAVED,
        waiting: 0,
        gathered: 0,
        parameters: [0, 0, 0, 0],
        marks: 0,
    },
};

impl Multiplexer {
    /// A fresh multiplexer: no slot is open yet.
    pub fn fresh() -> Multiplexer {
        Multiplexer { slots: [FREE_SLOT; 4] }
    }

    /// Free slots hold 0 everywhere; open ones have valid ports, different
    /// clients, and panes without a common cell.
    pub fn valid(&self) -> bool {
        for slot in self.slots {
            if slot.client == 0 {
                if slot != FREE_SLOT {
                    return false;
                }
            } else if !slot.port.valid() {
                return false;
            }
        }
        for first in 0..4 {
            for second in first + 1..4 {
                let (one, other) = (self.slots[first], self.slots[second]);
                if one.client != 0 && other.client != 0 {
                    if one.client == other.client {
                        return false;
                    }
                    if share_a_cell(one.port.home, other.port.home) {
                        return false;
                    }
                }
            }
        }
        true
    }

    /// The place of the client's open slot; 0 never has one.
    fn find_open(&self, client: u8) -> Option<usize> {
        if client == 0 {
            return None;
        }
        for place in 0..4 {
            if self.slots[place].client == client {
                return Some(place);
            }
        }
        None
    }

    fn lowest_free(&self) -> Option<usize> {
        for place in 0..4 {
            if self.slots[place].client == 0 {
                return Some(place);
            }
        }
        None
    }
}

/// Looks at each cell of the one, whether it lies in the other as well.
fn share_a_cell(one: Rectangle, other: Rectangle) -> bool {
    for line in one.top..=one.bottom {
        for column in one.left..=one.right {
            if other.contains(Cursor { column, line }) {
                return true;
            }
        }
    }
    false
}

/// Starts a fresh port in the lowest free slot and blanks its pane, which
/// marks the pane's lines. Refusals 1 to 7, the smallest first. Gives the
/// status, the multiplexer and a count of 0.
pub fn open(
    multiplexer: Multiplexer,
    screen: &mut [u8],
    client: u8,
    pane: Rectangle,
) -> (u8, Multiplexer, usize) {
    if screen.len() != SCREEN_SIZE {
        return (1, multiplexer, 0);
    }
    if !multiplexer.valid() {
        return (2, multiplexer, 0);
    }
    if client == 0 {
        return (3, multiplexer, 0);
    }
    if !pane.legal() {
        return (4, multiplexer, 0);
    }
    if multiplexer.find_open(client).is_some() {
        return (5, multiplexer, 0);
    }
    for slot in multiplexer.slots {
        if slot.client != 0 && share_a_cell(pane, slot.port.home) {
            return (6, multiplexer, 0);
        }
    }
    let place = match multiplexer.lowest_free() {
        Some(place) => place,
        None => return (7, multiplexer, 0),
    };
    // A fresh port's viewport is its pane.
    let mut port = Port::fresh_in(pane);
    erase(&mut port, screen, |_, _| true);
    let mut multiplexer = multiplexer;
    multiplexer.slots[place] = Slot { client, port };
    (0, multiplexer, 0)
}

/// Makes the slot a free one, no field of it kept. No screen is lent, so
/// no cell changes and status 1 does not occur: refusals 2 and 8 only.
pub fn close(multiplexer: Multiplexer, client: u8) -> (u8, Multiplexer, usize) {
    let place = match select(&multiplexer, client) {
        Ok(place) => place,
        Err(status) => return (status, multiplexer, 0),
    };
    let mut multiplexer = multiplexer;
    multiplexer.slots[place] = FREE_SLOT;
    (0, multiplexer, 0)
}

/// The slot that a call is for, or the refusal: 2 or 8, the smallest first.
fn select(multiplexer: &Multiplexer, client: u8) -> Result<usize, u8> {
    if !multiplexer.valid() {
        return Err(2);
    }
    match multiplexer.find_open(client) {
        Some(place) => Ok(place),
        None => Err(8),
    }
}

/// The same for a call that is lent a screen, with 1 before the others.
fn select_with_screen(multiplexer: &Multiplexer, screen: &[u8], client: u8) -> Result<usize, u8> {
    if screen.len() != SCREEN_SIZE {
        return Err(1);
    }
    select(multiplexer, client)
}

/// Hands a stream to the client's port. Refusals 1, 2 and 8; the count is
/// the number of bells rung.
pub fn write(
    multiplexer: Multiplexer,
    screen: &mut [u8],
    client: u8,
    bytes: &[u8],
) -> (u8, Multiplexer, usize) {
    let place = match select_with_screen(&multiplexer, screen, client) {
        Ok(place) => place,
        Err(status) => return (status, multiplexer, 0),
    };
    let mut multiplexer = multiplexer;
    let (status, port, bells) = console::write(multiplexer.slots[place].port, screen, bytes);
    multiplexer.slots[place].port = port;
    (status, multiplexer, bells)
}

/// Fills the lent block from the viewport of the client's port. Refusals
/// 1, 2, 8 and 9; the count is 2 + width x height.
pub fn block_return(
    multiplexer: Multiplexer,
    screen: &[u8],
    client: u8,
    block: &mut [u8],
) -> (u8, Multiplexer, usize) {
    let place = match select_with_screen(&multiplexer, screen, client) {
        Ok(place) => place,
        Err(status) => return (status, multiplexer, 0),
    };
    let mut multiplexer = multiplexer;
    let (status, port, count) = block::block_return(multiplexer.slots[place].port, screen, block);
    multiplexer.slots[place].port = port;
    (status, multiplexer, count)
}

/// Writes a block into the viewport of the client's port. Refusals 1, 2, 8
/// and 10; the count is 0.
pub fn block_restore(
    multiplexer: Multiplexer,
    screen: &mut [u8],
    client: u8,
    block: &[u8],
) -> (u8, Multiplexer, usize) {
    let place = match select_with_screen(&multiplexer, screen, client) {
        Ok(place) => place,
        Err(status) => return (status, multiplexer, 0),
    };
    let mut multiplexer = multiplexer;
    let (status, port, count) = block::block_restore(multiplexer.slots[place].port, screen, block);
    multiplexer.slots[place].port = port;
    (status, multiplexer, count)
}

/// Takes the marks of the client's port. Refusals 2 and 8 only, as no screen
/// is lent. Gives the status, the multiplexer, the marks and how many lines
/// are marked.
pub fn take_marks(multiplexer: Multiplexer, client: u8) -> (u8, Multiplexer, u32, usize) {
    let place = match select(&multiplexer, client) {
        Ok(place) => place,
        Err(status) => return (status, multiplexer, 0, 0),
    };
    let mut multiplexer = multiplexer;
    let (status, port, marks, count) = console::take_marks(multiplexer.slots[place].port);
    multiplexer.slots[place].port = port;
    (status, multiplexer, marks, count)
}
