//! In words, where the library's outcome of a call is not the reference's.

use super::call::Action;
use super::cut::cut;
use super::run::{Field, Step};
use super::subject::{Outcome, Subject, NUMBERS};

/// The numbers of an answer.
const NAMES: [&str; NUMBERS] = ["status", "length", "cursor", "keys read", "beeps", "ending"];

/// All that is wrong with the first call that is answered differently,
/// whole or, if these are keys, cut. None if all is as it should be.
pub fn difference(field: &Field, steps: &[Step]) -> Option<String> {
    for (place, step) in steps.iter().enumerate() {
        let whole = Subject::Library.make(field, &step.before, step.call);
        if whole != step.outcome {
            return Some(format!("{}: {}", step.name(place), faults(step, &whole)));
        }
        match cut(Subject::Library, field, step, |_, _, _| {}) {
            Some(cut) if cut != step.outcome => {
                let name = step.name(place);
                return Some(format!("{}, cut after every key: {}", name, faults(step, &cut)));
            }
            _ => {}
        }
    }
    None
}

/// What is wrong with an outcome that is not the step's: result, answer
/// and all else that was lent.
pub fn faults(step: &Step, given: &Outcome) -> String {
    let wanted = &step.outcome;
    let mut faults = Vec::new();
    if given.result != wanted.result {
        faults.push(format!("result {} instead of {}", given.result, wanted.result));
    }
    match step.call.action {
        Action::Start | Action::Keys { .. } => faults.extend(number_faults(wanted, given)),
        Action::Text { .. } => {
            let (wanted, given) = (in_bytes(&wanted.answer), in_bytes(&given.answer));
            faults.extend(byte_fault(&wanted, &given, "the lent answer"));
        }
    }
    faults.extend(byte_fault(&wanted.buffer, &given.buffer, "the buffer"));
    faults.extend(byte_fault(&wanted.default, &given.default, "the default"));
    faults.extend(byte_fault(&wanted.keys, &given.keys, "the keys"));
    faults.join("; ")
}

/// Each number that is wrong, also behind the answer's end.
fn number_faults(wanted: &Outcome, given: &Outcome) -> Vec<String> {
    let answered = wanted.result == NUMBERS;
    let numbers = wanted.answer.iter().zip(&given.answer).enumerate();
    numbers
        .filter(|(_, (wanted, given))| wanted != given)
        .map(|(place, (wanted, given))| match NAMES.get(place) {
            Some(name @ &"ending") if answered => {
                format!("{} {:02x} instead of {:02x}", name, given, wanted)
            }
            Some(name) if answered => format!("{} {} instead of {}", name, given, wanted),
            _ => format!("place {} of the lent answer {} instead of {}", place, given, wanted),
        })
        .collect()
}

fn in_bytes(answer: &[usize]) -> Vec<u8> {
    answer.iter().map(|&byte| byte as u8).collect()
}

/// The first byte that differs, and how many do.
fn byte_fault(wanted: &[u8], given: &[u8], of: &str) -> Option<String> {
    let differs = |&place: &usize| wanted[place] != given[place];
    let first = (0..wanted.len()).find(differs)?;
    let all = (0..wanted.len()).filter(differs).count();
    let rest = if all > 1 { format!(", the first of {}", all) } else { String::new() };
    let (wanted, given) = (wanted[first], given[first]);
    Some(format!("byte {} of {} {:02x} instead of {:02x}{}", first, of, given, wanted, rest))
}
