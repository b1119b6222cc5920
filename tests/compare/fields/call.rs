//! A call on a field as a value.

use crate::difference::brief_hex;
use crate::field::State;
use std::fmt;

/// A kind of call with its arguments. Without a state or an ending of its
/// own it takes the one that the calls before it left.
#[derive(Clone, PartialEq, Eq)]
pub enum Action {
    Start,
    Keys { state: Option<State>, keys: Vec<u8> },
    Text { state: Option<State>, ending: Option<u8> },
}

#[derive(Clone, PartialEq, Eq)]
pub struct Call {
    pub action: Action,
    /// How many places more are lent for the answer than it needs; fewer
    /// if it is negative.
    pub spare: isize,
}

pub const KINDS: [&str; 3] = ["start", "keys", "text"];

impl Call {
    pub fn kind(&self) -> usize {
        match self.action {
            Action::Start => 0,
            Action::Keys { .. } => 1,
            Action::Text { .. } => 2,
        }
    }

    /// The keys that are handed over; none by another kind of call.
    pub fn keys(&self) -> &[u8] {
        match &self.action {
            Action::Keys { keys, .. } => keys,
            _ => &[],
        }
    }

    /// How many places are lent for an answer that needs so many.
    pub fn room(&self, needed: usize) -> usize {
        (needed as isize + self.spare).max(0) as usize
    }
}

impl fmt::Display for Call {
    fn fmt(&self, to: &mut fmt::Formatter<'_>) -> fmt::Result {
        write!(to, "{}", KINDS[self.kind()])?;
        if let Action::Keys { state: Some(state), .. } | Action::Text { state: Some(state), .. } =
            &self.action
        {
            write!(to, " from length {}, cursor {}", state.length, state.cursor)?;
        }
        match &self.action {
            Action::Keys { keys, .. } => {
                write!(to, ", {} of them: {}", keys.len(), brief_hex(keys))?
            }
            Action::Text { ending: Some(ending), .. } => write!(to, ", ending {:02x}", ending)?,
            Action::Text { ending: None, .. } => write!(to, ", the last ending")?,
            Action::Start => {}
        }
        match self.spare {
            0 => Ok(()),
            more @ 1.. => write!(to, ", an answer lent {} too long", more),
            fewer => write!(to, ", an answer lent {} too short", -fewer),
        }
    }
}
