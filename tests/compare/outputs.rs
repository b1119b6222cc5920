//! What is wrong with the outputs for one stream.

use crate::difference::first_difference;
use crate::expected::Output;
use crate::subjects::Subject;

/// What is wrong with the reference's own output, whole and cut after
/// every byte; marks must be the same in both.
pub fn reference_faults(output: &[u8], whole: &Output, cut: &Output) -> Vec<String> {
    let mut faults = Vec::new();
    for (name, given) in [("reference", whole), ("reference, one byte a write", cut)] {
        if let Some(difference) = first_difference(output, given.printed.as_bytes()) {
            faults.push(format!("{}: {}", name, difference.brief()));
        }
    }
    if whole.marks != cut.marks {
        faults.push(format!("reference: '{}' and cut '{}'", whole.marks.trim(), cut.marks.trim()));
    }
    faults
}

/// What is wrong with what each subject gives for the input: the output
/// of a program should be this, and the library's marks should be these.
pub fn output_faults(
    input: &[u8],
    output: &[u8],
    marks: &str,
    subjects: &[Subject],
) -> Vec<String> {
    let mut faults = Vec::new();
    for subject in subjects {
        match subject.output(input) {
            Err(fault) => faults.push(format!("{} {}", subject, fault)),
            Ok(printed) => {
                let wanted = subject.wanted(output, marks);
                if let Some(difference) = first_difference(&wanted, &printed) {
                    faults.push(format!("{}: {}", subject, difference.brief()));
                }
            }
        }
    }
    faults
}
