//! In words, where the library's outcome of a run is not the reference's.

use super::answer::Answer;
use super::call::KINDS;
use super::run::{Outcome, Run};
use crate::lines::in_words;

/// None if both are the same. Otherwise all that is wrong with the first
/// call that is answered differently; if none is, what else is wrong.
pub fn difference(run: &Run, wanted: &Outcome, given: &Outcome) -> Option<String> {
    if wanted == given {
        return None;
    }
    let (wanted_answers, given_answers) = (run.answers(wanted), run.answers(given));
    for (place, call) in run.served().iter().enumerate() {
        let faults = match given_answers.get(place) {
            Some(answer) => answer_faults(&wanted_answers[place], answer),
            None => {
                vec![format!("it is not answered: {} bytes of answers came back", given.length)]
            }
        };
        if !faults.is_empty() {
            let name =
                format!("call {} ({}, client {})", place + 1, KINDS[call.kind()], call.client);
            return Some(format!("{}: {}", name, faults.join("; ")));
        }
    }
    Some(other_fault(wanted, given))
}

/// What is wrong with each part of one answer.
fn answer_faults(wanted: &Answer, given: &Answer) -> Vec<String> {
    let mut faults = Vec::new();
    if wanted.status != given.status {
        faults.push(format!("status {} instead of {}", given.status, wanted.status));
    }
    if wanted.count != given.count {
        faults.push(format!("count {} instead of {}", given.count, wanted.count));
    }
    faults.extend(marks_fault("returned", wanted.marks, given.marks));
    faults.extend(byte_fault(wanted.block, given.block, |place| {
        format!("byte {} of the block", place)
    }));
    for (slot, (&wanted, given)) in wanted.held.iter().zip(given.held).enumerate() {
        faults.extend(marks_fault(&format!("held in slot {}", slot), wanted, given));
    }
    faults.extend(byte_fault(wanted.cells, given.cells, cell_name));
    faults
}

fn marks_fault(how: &str, wanted: u32, given: u32) -> Option<String> {
    let (wanted, given) = (in_words(wanted), in_words(given));
    (wanted != given).then(|| format!("marked lines {}: {} instead of {}", how, given, wanted))
}

pub fn cell_name(place: usize) -> String {
    format!("cell ({}, {})", place % 80, place / 80)
}

/// The first byte that differs, and how many do.
fn byte_fault(wanted: &[u8], given: &[u8], name: impl Fn(usize) -> String) -> Option<String> {
    let differs = |&place: &usize| wanted[place] != given[place];
    let first = (0..wanted.len()).find(differs)?;
    let all = (0..wanted.len()).filter(differs).count();
    let rest = if all > 1 { format!(", the first of {}", all) } else { String::new() };
    let (wanted, given) = (wanted[first], given[first]);
    Some(format!("{} {:02x} instead of {:02x}{}", name(first), given, wanted, rest))
}

/// What is wrong where every call is answered as it should be.
fn other_fault(wanted: &Outcome, given: &Outcome) -> String {
    if wanted.length != given.length {
        return format!(
            "after the last answer: {} bytes of answers instead of {}",
            given.length, wanted.length
        );
    }
    let unused = byte_fault(&wanted.answers, &given.answers, |place| {
        format!("past the last answer: byte {} of what was lent for answers", place)
    });
    let screen = byte_fault(&wanted.screen, &given.screen, |place| {
        format!("the lent screen after the run: {}", cell_name(place))
    });
    unused.or(screen).expect("the outcomes differ")
}
