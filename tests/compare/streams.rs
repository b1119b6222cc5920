//! The stored streams. Each folder holds an `input`, the `output` that it
//! must give, and `about`: one line of words that says what the stream
//! shows and which rule it is about. To add a case, add a folder. The marks
//! that the library must give as well are the reference's.

use crate::edges;
use crate::expected;
use crate::limits;
use crate::outputs::{output_faults, reference_faults};
use crate::subjects::{subjects, Subject};
use std::ffi::OsStr;
use std::fs;
use std::io;
use std::path::{Path, PathBuf};

/// Prints a line for each case that fails and one at the end, and tells
/// whether all is well.
pub fn streams(folder: &Path, console: &OsStr) -> bool {
    let subjects = subjects(console);
    let mut passed = 0;
    let mut failed = 0;
    let mut count = |name: &str, faults: &[String]| {
        if faults.is_empty() {
            passed += 1;
        } else {
            failed += 1;
            println!("{}: {}", name, faults.join("; "));
        }
    };
    match case_folders(folder) {
        Ok(cases) if cases.is_empty() => {
            count("streams", &[format!("no case was found in {}", folder.display())]);
        }
        Ok(cases) => {
            for case in cases {
                let name = case.file_name().unwrap_or_default().to_string_lossy().into_owned();
                count(&name, &stored_case(&case, &subjects));
            }
        }
        Err(error) => {
            count("streams", &[format!("{} cannot be read: {}", folder.display(), error)]);
        }
    }
    for case in limits::cases() {
        count(case.name, &limits::faults(&case, &subjects));
    }
    count("library-short-answers", &edges::short_answers());
    count("library-writes-of-no-size", &edges::writes_of_no_size());
    count("library-longer-answer", &edges::longer_answer());
    count("library-other-screens", &edges::other_screens());
    println!("streams: {} passed, {} failed", passed, failed);
    failed == 0
}

/// The folders in a folder, by name. Other files there are no cases.
fn case_folders(folder: &Path) -> io::Result<Vec<PathBuf>> {
    let mut cases = Vec::new();
    for entry in fs::read_dir(folder)? {
        let path = entry?.path();
        if path.is_dir() {
            cases.push(path);
        }
    }
    cases.sort();
    Ok(cases)
}

/// What is wrong with one stored case, and then what it is about: a
/// reader sees which rule is broken.
fn stored_case(case: &Path, subjects: &[Subject]) -> Vec<String> {
    let mut faults = Vec::new();
    let about = read_about(case, &mut faults);
    faults.extend(stream_faults(case, subjects));
    match about {
        Some(about) if !faults.is_empty() => faults.push(format!("about: {}", about)),
        _ => {}
    }
    faults
}

/// The words of a case. None is a fault: bytes do not explain themselves.
fn read_about(case: &Path, faults: &mut Vec<String>) -> Option<String> {
    let bytes = read(case, "about", faults)?;
    let text = String::from_utf8_lossy(&bytes);
    let lines = text.lines().count();
    if text.trim().is_empty() {
        faults.push("its about is empty".to_string());
        None
    } else if lines != 1 {
        faults.push(format!("its about has {} lines and not one", lines));
        None
    } else {
        Some(text.trim().to_string())
    }
}

/// What is wrong with what the reference and each subject give.
fn stream_faults(case: &Path, subjects: &[Subject]) -> Vec<String> {
    let mut faults = Vec::new();
    let input = read(case, "input", &mut faults);
    let output = read(case, "output", &mut faults);
    let (input, output) = match (input, output) {
        (Some(input), Some(output)) => (input, output),
        _ => return faults,
    };
    let whole = expected::whole(&input);
    let cut = expected::cut(&input, |_, _| {});
    faults.extend(reference_faults(&output, &whole, &cut));
    faults.extend(output_faults(&input, &output, &whole.marks, subjects));
    faults
}

fn read(case: &Path, file: &str, faults: &mut Vec<String>) -> Option<Vec<u8>> {
    match fs::read(case.join(file)) {
        Ok(bytes) => Some(bytes),
        Err(error) => {
            faults.push(format!("its {} cannot be read: {}", file, error));
            None
        }
    }
}
