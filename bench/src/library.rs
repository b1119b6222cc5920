//! The library `boundary`, linked in. Its functions are proved, but what
//! they assume of a caller lies outside any proof: each pointer is valid
//! for the length beside it, and no slice that may be written overlaps
//! another one. Rust's borrow rules give both to the functions here.

use crate::feed::{Answer, Feed};

pub type RunStream =
    unsafe extern "C" fn(*const u8, usize, usize, *mut u8, usize, *mut u8, usize) -> usize;
pub type PutBytes = unsafe extern "C" fn(*const u8, usize, *mut u8, usize, *mut u8, usize) -> usize;

/// The calls that run a stream on a fresh plain console. As pointers, so
/// that others can stand in their place.
#[derive(Clone, Copy)]
pub struct Calls {
    pub run_stream: RunStream,
    pub put_bytes: PutBytes,
}

pub const LIBRARY: Calls =
    Calls { run_stream: combthrift_run_stream, put_bytes: combthrift_put_bytes };

extern "C" {
    fn combthrift_run_stream(
        bytes: *const u8,
        bytes_length: usize,
        size: usize,
        screen: *mut u8,
        screen_length: usize,
        answer: *mut u8,
        answer_length: usize,
    ) -> usize;

    fn combthrift_put_bytes(
        bytes: *const u8,
        bytes_length: usize,
        screen: *mut u8,
        screen_length: usize,
        answer: *mut u8,
        answer_length: usize,
    ) -> usize;

    fn combthrift_run_script(
        script: *const u8,
        script_length: usize,
        screen: *mut u8,
        screen_length: usize,
        answers: *mut u8,
        answers_length: usize,
    ) -> usize;
}

/// Runs a script on a fresh multiplexer and the lent screen. The answers
/// go to the front of `answers`, as many as fit. Gives their length.
pub fn run_script(script: &[u8], screen: &mut [u8], answers: &mut [u8]) -> usize {
    let (calls, length) = (script.as_ptr(), script.len());
    let (cells, count) = (screen.as_mut_ptr(), screen.len());
    unsafe {
        combthrift_run_script(calls, length, cells, count, answers.as_mut_ptr(), answers.len())
    }
}

impl Calls {
    /// Hands a stream to a fresh console and the lent screen. Never
    /// inlined, so that its own frame is the same whatever it calls.
    #[inline(never)]
    pub fn run(&self, stream: &[u8], feed: Feed, screen: &mut [u8]) -> Answer {
        let mut answer: Answer = [0; 12];
        let (bytes, length) = (stream.as_ptr(), stream.len());
        let (cells, count) = (screen.as_mut_ptr(), screen.len());
        let (lent, room) = (answer.as_mut_ptr(), answer.len());
        match feed {
            Feed::Writes(size) => unsafe {
                (self.run_stream)(bytes, length, size, cells, count, lent, room)
            },
            Feed::Bytes => unsafe { (self.put_bytes)(bytes, length, cells, count, lent, room) },
        };
        answer
    }
}
