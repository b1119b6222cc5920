//! A call by client as a value, and its bytes in a script.

use crate::difference::brief_hex;
use crate::port::Rectangle;
use std::fmt;

/// A kind of call with its arguments; the three after `Close` lend bytes.
#[derive(Clone)]
pub enum Action {
    Open(Rectangle),
    Close,
    Write(Vec<u8>),
    Return(Vec<u8>),
    Restore(Vec<u8>),
    /// Takes the marks.
    Take,
}

#[derive(Clone)]
pub struct Call {
    pub client: u8,
    pub action: Action,
}

/// The kinds, each at its number in a script.
pub const KINDS: [&str; 6] = ["open", "close", "write", "return", "restore", "take"];

impl Call {
    pub fn kind(&self) -> usize {
        match self.action {
            Action::Open(_) => 0,
            Action::Close => 1,
            Action::Write(_) => 2,
            Action::Return(_) => 3,
            Action::Restore(_) => 4,
            Action::Take => 5,
        }
    }

    pub fn bytes(&self) -> Vec<u8> {
        let mut bytes = vec![self.kind() as u8, self.client];
        match &self.action {
            Action::Open(pane) => {
                bytes.extend_from_slice(&[pane.left, pane.top, pane.right, pane.bottom])
            }
            Action::Close | Action::Take => {}
            Action::Write(lent) | Action::Return(lent) | Action::Restore(lent) => {
                let length = u16::try_from(lent.len()).expect("a length has two bytes");
                bytes.extend_from_slice(&length.to_le_bytes());
                bytes.extend_from_slice(lent);
            }
        }
        bytes
    }

    /// How many bytes of its answer are the block lent for a return.
    pub fn returned_length(&self) -> usize {
        match &self.action {
            Action::Return(block) => block.len(),
            _ => 0,
        }
    }
}

impl fmt::Display for Call {
    fn fmt(&self, to: &mut fmt::Formatter<'_>) -> fmt::Result {
        write!(to, "{}, client {}", KINDS[self.kind()], self.client)?;
        match &self.action {
            Action::Open(pane) => {
                write!(to, ", pane {} {} {} {}", pane.left, pane.top, pane.right, pane.bottom)
            }
            Action::Close | Action::Take => Ok(()),
            Action::Write(lent) | Action::Return(lent) | Action::Restore(lent) => {
                write!(to, ", {} bytes: {}", lent.len(), brief_hex(lent))
            }
        }
    }
}
