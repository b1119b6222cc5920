//! How a stream is handed to a console, and what comes back.

/// As the library answers: the status, the bells, the cursor's column and
/// line, the marks and how many lines are marked. Bells and marks are four
/// bytes each, low byte first.
pub type Answer = [u8; 12];

#[derive(Clone, Copy, Debug, PartialEq, Eq)]
pub enum Feed {
    /// Writes of at most so many bytes; the port is passed by value.
    Writes(usize),
    /// Each byte by the one-byte call; the port is kept where it lies.
    Bytes,
}
