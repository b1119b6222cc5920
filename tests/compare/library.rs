//! The library `boundary`, linked in. Its functions are proved, but what
//! they assume of a caller lies outside any proof: each pointer is valid
//! for the length beside it, and no slice that may be written overlaps
//! another one. Rust's borrow rules give both to the functions here.

mod fields;

pub use fields::{field_keys, field_start, field_text};

/// How many bytes the answer of a stream is.
pub const STREAM_ANSWER: usize = 12;

extern "C" {
    fn combthrift_run_script(
        script: *const u8,
        script_length: usize,
        screen: *mut u8,
        screen_length: usize,
        answers: *mut u8,
        answers_length: usize,
    ) -> usize;

    fn combthrift_run_stream(
        bytes: *const u8,
        bytes_length: usize,
        size: usize,
        screen: *mut u8,
        screen_length: usize,
        answer: *mut u8,
        answer_length: usize,
    ) -> usize;

    fn combthrift_put_bytes(
        bytes: *const u8,
        bytes_length: usize,
        screen: *mut u8,
        screen_length: usize,
        answer: *mut u8,
        answer_length: usize,
    ) -> usize;
}

/// How a stream is fed.
#[derive(Clone, Copy, Debug, PartialEq, Eq)]
pub enum Feed {
    /// In writes of at most so many bytes; 0 is refused.
    Writes(usize),
    /// By the one-byte call, on a port that is changed where it lies.
    Bytes,
}

/// The number that four bytes of an answer stand for: low byte first.
pub fn number(bytes: &[u8]) -> u32 {
    u32::from_le_bytes(bytes.try_into().expect("a number has four bytes"))
}

/// Runs a script on a fresh multiplexer and the lent screen. The answers
/// go to the front of `answers`, as many as fit. Gives their length.
pub fn run_script(script: &[u8], screen: &mut [u8], answers: &mut [u8]) -> usize {
    unsafe {
        combthrift_run_script(
            script.as_ptr(),
            script.len(),
            screen.as_mut_ptr(),
            screen.len(),
            answers.as_mut_ptr(),
            answers.len(),
        )
    }
}

/// Hands a stream to a fresh plain console and the lent screen, and takes
/// the marks in the end. The answer is twelve bytes: the last status, all
/// bells, the cursor's column and line, the marks, and how many lines are
/// marked; bells and marks are numbers of four bytes. Gives 12; or 0, with
/// nothing done, if fewer bytes are lent for it or writes have no size.
pub fn run_stream(bytes: &[u8], feed: Feed, screen: &mut [u8], answer: &mut [u8]) -> usize {
    match feed {
        Feed::Writes(size) => unsafe {
            combthrift_run_stream(
                bytes.as_ptr(),
                bytes.len(),
                size,
                screen.as_mut_ptr(),
                screen.len(),
                answer.as_mut_ptr(),
                answer.len(),
            )
        },
        Feed::Bytes => unsafe {
            combthrift_put_bytes(
                bytes.as_ptr(),
                bytes.len(),
                screen.as_mut_ptr(),
                screen.len(),
                answer.as_mut_ptr(),
                answer.len(),
            )
        },
    }
}
