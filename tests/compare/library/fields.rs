//! The library's calls on an input field. What a call should only read is
//! lent mutably too, so that a change of it is one that Rust knows of.

use crate::field::State;

extern "C" {
    fn combthrift_field_start(
        width: usize,
        maximum: usize,
        default: *const u8,
        default_length: usize,
        buffer: *mut u8,
        buffer_length: usize,
        answer: *mut usize,
        answer_length: usize,
    ) -> usize;

    fn combthrift_field_keys(
        width: usize,
        maximum: usize,
        default: *const u8,
        default_length: usize,
        buffer: *mut u8,
        buffer_length: usize,
        length: usize,
        cursor: usize,
        keys: *const u8,
        keys_length: usize,
        answer: *mut usize,
        answer_length: usize,
    ) -> usize;

    fn combthrift_field_text(
        width: usize,
        maximum: usize,
        default: *const u8,
        default_length: usize,
        buffer: *const u8,
        buffer_length: usize,
        length: usize,
        cursor: usize,
        ending: u8,
        answer: *mut u8,
        answer_length: usize,
    ) -> usize;
}

/// Starts a field. The answer is six numbers: status, length, cursor, then
/// 0 for keys read, beeps and ending. Gives 6; or 0, with nothing done, if
/// fewer places are lent for it.
pub fn field_start(
    width: usize,
    maximum: usize,
    default: &mut [u8],
    buffer: &mut [u8],
    answer: &mut [usize],
) -> usize {
    unsafe {
        combthrift_field_start(
            width,
            maximum,
            default.as_mut_ptr(),
            default.len(),
            buffer.as_mut_ptr(),
            buffer.len(),
            answer.as_mut_ptr(),
            answer.len(),
        )
    }
}

/// Hands keys to a field. The answer is six numbers, as at the start; the
/// ending is 0 for none, or its key. Gives 6 or 0, as at the start.
pub fn field_keys(
    width: usize,
    maximum: usize,
    default: &mut [u8],
    buffer: &mut [u8],
    state: State,
    keys: &mut [u8],
    answer: &mut [usize],
) -> usize {
    unsafe {
        combthrift_field_keys(
            width,
            maximum,
            default.as_mut_ptr(),
            default.len(),
            buffer.as_mut_ptr(),
            buffer.len(),
            state.length,
            state.cursor,
            keys.as_mut_ptr(),
            keys.len(),
            answer.as_mut_ptr(),
            answer.len(),
        )
    }
}

/// Copies the text that an ending hands back to the front of `answer`; an
/// ending is its key, and any other byte none. Gives the text's length; or
/// 0, with nothing copied, if fewer bytes are lent for it.
pub fn field_text(
    width: usize,
    maximum: usize,
    default: &mut [u8],
    buffer: &mut [u8],
    state: State,
    ending: u8,
    answer: &mut [u8],
) -> usize {
    unsafe {
        combthrift_field_text(
            width,
            maximum,
            default.as_mut_ptr(),
            default.len(),
            buffer.as_mut_ptr(),
            buffer.len(),
            state.length,
            state.cursor,
            ending,
            answer.as_mut_ptr(),
            answer.len(),
        )
    }
}
