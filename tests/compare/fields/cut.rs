//! Keys cut after every one.

use super::call::Action;
use super::effects::Press;
use super::run::{Field, Step};
use super::subject::{Outcome, Subject, LENT, NUMBERS};
use crate::field::State;

/// The outcome of a call's keys handed over in calls of no key and then
/// of one key each, with the counts added up. Nothing follows an ending
/// key or a refusal. None for another kind of call, and without room for
/// an answer. After each key `see` is shown the key and what was there
/// before it, the answer and the buffer.
pub fn cut(
    subject: Subject,
    field: &Field,
    step: &Step,
    mut see: impl FnMut(&Press, &[usize], &[u8]),
) -> Option<Outcome> {
    let mut keys = match &step.call.action {
        Action::Keys { keys, .. } => keys.clone(),
        _ => return None,
    };
    let mut answer = vec![LENT as usize; step.call.room(NUMBERS)];
    if answer.len() < NUMBERS {
        return None;
    }
    let mut lent = field.clone();
    let mut buffer = step.before.buffer.clone();
    let mut buffer_before = buffer.clone();
    let mut state = step.before.state;
    let (mut result, mut read, mut beeps) = (0, 0_usize, 0_usize);
    for piece in [&mut [][..]].into_iter().chain(keys.chunks_mut(1)) {
        buffer_before.copy_from_slice(&buffer);
        result = subject.keys(&mut lent, &mut buffer, state, piece, &mut answer);
        if let [key] = *piece {
            see(&Press { field, buffer: &buffer_before, state, key }, &answer, &buffer);
        }
        state = State { length: answer[1], cursor: answer[2] };
        read = read.wrapping_add(answer[3]);
        beeps = beeps.wrapping_add(answer[4]);
        if result != NUMBERS || answer[0] != 0 || answer[5] != 0 {
            break;
        }
    }
    answer[3] = read;
    answer[4] = beeps;
    Some(Outcome { result, answer, buffer, default: lent.default, keys })
}
