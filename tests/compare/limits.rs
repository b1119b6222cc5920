//! Inputs at the limit of 1,048,576 bytes. They are made when needed and
//! not stored.

use crate::expected::{self, INPUT_LIMIT};
use crate::outputs::output_faults;
use crate::subjects::Subject;

pub struct Case {
    pub name: &'static str,
    pub input: Vec<u8>,
}

pub fn cases() -> Vec<Case> {
    vec![
        Case { name: "limit-text", input: text(INPUT_LIMIT) },
        Case { name: "limit-text-and-one-byte", input: text(INPUT_LIMIT + 1) },
        Case { name: "limit-text-and-many-bytes", input: text(INPUT_LIMIT + 200_001) },
        Case { name: "limit-bells", input: vec![0x07; INPUT_LIMIT] },
        Case { name: "limit-bells-and-one-byte", input: vec![0x07; INPUT_LIMIT + 1] },
        Case { name: "limit-inside-a-command", input: command_past_the_limit() },
    ]
}

/// Printing codes, the same one after 94 bytes only.
fn text(length: usize) -> Vec<u8> {
    (0..length).map(|place| 0x21 + (place % 94) as u8).collect()
}

/// Text and then $1E, whose second parameter is one byte past the limit.
fn command_past_the_limit() -> Vec<u8> {
    let mut input = text(INPUT_LIMIT - 2);
    input.extend_from_slice(&[0x1E, 0x25, 0x25]);
    input
}

/// What is wrong: the last byte that is read must show, and a byte past
/// the limit must not, though it would.
pub fn faults(case: &Case, subjects: &[Subject]) -> Vec<String> {
    let output = expected::whole(&case.input);
    let prints = |input: &[u8]| expected::without_limit(input).printed == output.printed;
    let mut faults = Vec::new();
    if case.input.len() > INPUT_LIMIT {
        if prints(&case.input) {
            faults.push("the bytes past the limit would not show".to_string());
        }
    } else if prints(&case.input[..INPUT_LIMIT - 1]) {
        faults.push("the last byte does not show".to_string());
    }
    if expected::cut(&case.input, |_, _| {}) != output {
        faults.push("reference: one byte a write gives another output".to_string());
    }
    let printed = output.printed.as_bytes();
    faults.extend(output_faults(&case.input, printed, &output.marks, subjects));
    faults
}
