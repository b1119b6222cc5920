//! The program: its arguments, its reading, and the lines it writes.

use crate::{read_all, read_input, run, run_field, task_asked, Task};
use std::ffi::OsString;
use std::io::{self, Read};
use std::os::unix::ffi::OsStringExt;

fn arguments(words: &[&str]) -> Vec<OsString> {
    words.iter().map(OsString::from).collect()
}

/// A source that fails after two bytes.
struct Broken(u8);

impl Read for Broken {
    fn read(&mut self, buffer: &mut [u8]) -> io::Result<usize> {
        if self.0 == 2 || buffer.is_empty() {
            return Err(io::Error::new(io::ErrorKind::Other, "broken"));
        }
        self.0 += 1;
        buffer[0] = 0x41;
        Ok(1)
    }
}

#[test]
fn empty_input() {
    let mut wanted = String::new();
    for _ in 0..24 {
        wanted.push_str(&"a0".repeat(80));
        wanted.push('\n');
    }
    wanted.push_str("cursor 0 0 bells 0\n");
    assert_eq!(run(b"", false), wanted);
    assert_eq!(run(b"", true), wanted);
}

#[test]
fn a_few_bytes_whole_and_cut() {
    // $C1 and inverse A on line 0, two bells, then the cursor to (12,3).
    let input = [0xC1, 0x0F, 0x41, 0x07, 0x07, 0x1E, 0x2C, 0x23];
    let mut wanted = String::from("4101");
    wanted.push_str(&"a0".repeat(78));
    wanted.push('\n');
    for _ in 0..23 {
        wanted.push_str(&"a0".repeat(80));
        wanted.push('\n');
    }
    wanted.push_str("cursor 12 3 bells 2\n");
    assert_eq!(run(&input, false), wanted);
    assert_eq!(run(&input, true), wanted);
}

#[test]
fn high_code_in_each_mode() {
    // $C1 in normal mode, inverse, with MouseText, without, normal again.
    let input = [0xC1, 0x0F, 0xC1, 0x1B, 0xC1, 0x18, 0xC1, 0x0E, 0xC1];
    let mut wanted = String::from("41c1c1c141");
    wanted.push_str(&"a0".repeat(75));
    wanted.push('\n');
    for _ in 0..23 {
        wanted.push_str(&"a0".repeat(80));
        wanted.push('\n');
    }
    wanted.push_str("cursor 5 0 bells 0\n");
    assert_eq!(run(&input, false), wanted);
    assert_eq!(run(&input, true), wanted);
}

#[test]
fn waiting_command_at_the_end_of_the_input() {
    assert_eq!(run(&[0x02, 0x2A, 0x25, 0x2C], false), run(b"", false));
    assert_eq!(run(&[0x02, 0x2A, 0x25, 0x2C], true), run(b"", false));
}

#[test]
fn known_arguments() {
    assert_eq!(task_asked(&arguments(&[])), Some(Task::Whole));
    assert_eq!(task_asked(&arguments(&["--cut"])), Some(Task::Cut));
    assert_eq!(task_asked(&arguments(&["--script"])), Some(Task::Script));
    for words in [&["-cut"][..], &["--CUT"], &[""], &["--cut", "--cut"], &["--cut", "x"]] {
        assert_eq!(task_asked(&arguments(words)), None);
    }
    for words in [&["-script"][..], &["--scripts"], &["--script", ""], &["--script", "--cut"]] {
        assert_eq!(task_asked(&arguments(words)), None);
    }
}

fn field_task(width: usize, maximum: usize, default: &[u8]) -> Option<Task> {
    Some(Task::Field { width, maximum, default: default.to_vec() })
}

#[test]
fn arguments_of_a_field() {
    let asked = |words| task_asked(&arguments(words));
    assert_eq!(asked(&["--field", "8", "12", "abc"]), field_task(8, 12, b"abc"));
    assert_eq!(asked(&["--field", "1", "254", ""]), field_task(1, 254, b""));
    // Any number is understood, and the field refuses it later; a default
    // that looks like an argument is a text all the same.
    assert_eq!(asked(&["--field", "0", "255", "--cut"]), field_task(0, 255, b"--cut"));
    let largest = usize::MAX.to_string();
    let wanted = field_task(usize::MAX, usize::MAX, b"a b");
    assert_eq!(asked(&["--field", &largest, &largest, "a b"]), wanted);
    // The default's bytes are taken as they are.
    let mut words = arguments(&["--field", "8", "12"]);
    words.push(OsString::from_vec(vec![0xFF, 0x01, 0x80]));
    assert_eq!(task_asked(&words), field_task(8, 12, b"\xFF\x01\x80"));
}

#[test]
fn unknown_arguments_of_a_field() {
    let too_large = format!("{}0", usize::MAX);
    for words in [
        &["--field"][..],
        &["--field", "8"],
        &["--field", "8", "12"],
        &["--field", "8", "12", "abc", ""],
        &["--field", "", "12", "abc"],
        &["--field", "8", "", "abc"],
        &["--field", "x", "12", "abc"],
        &["--field", "8", "-1", "abc"],
        &["--field", "8", "$0C", "abc"],
        &["--field", " 8", "12", "abc"],
        &["--field", &too_large, "12", "abc"],
        &["--Field", "8", "12", "abc"],
        &["--cut", "8", "12", "abc"],
    ] {
        assert_eq!(task_asked(&arguments(words)), None, "{:?}", words);
    }
    let mut words = arguments(&["--field", "8"]);
    words.push(OsString::from_vec(vec![0xFF]));
    words.push(OsString::from("abc"));
    assert_eq!(task_asked(&words), None);
}

#[test]
fn lines_of_a_field() {
    // Typed, an unknown key, then each ending; keys after it are not read.
    let wanted = "status 0 length 5 cursor 5 read 4 beeps 1 ending return\n6162637e20\n";
    assert_eq!(run_field(8, 12, b"abc", b"~ \x00\rX"), wanted);
    let wanted = "status 0 length 4 cursor 4 read 2 beeps 0 ending escape\nff0163\n";
    assert_eq!(run_field(8, 12, b"\xFF\x01c", b"d\x1B\r"), wanted);
    let wanted = "status 0 length 4 cursor 2 read 1 beeps 1 ending none\n\n";
    assert_eq!(run_field(2, 12, b"abcd", b"e"), wanted);
    let wanted = "status 0 length 0 cursor 0 read 0 beeps 0 ending none\n\n";
    assert_eq!(run_field(1, 1, b"", b""), wanted);
}

#[test]
fn lines_of_a_refused_field() {
    for (width, maximum, status) in [(0, 5, 11), (5, 255, 11), (5, usize::MAX, 11), (5, 2, 13)] {
        let wanted = format!("status {} length 0 cursor 0 read 0 beeps 0 ending none\n\n", status);
        assert_eq!(run_field(width, maximum, b"abc", b"d\x00\r"), wanted);
    }
}

#[test]
fn input_is_read_up_to_the_limit() {
    for (size, taken) in [(0, 0), (1, 1), (1_048_576, 1_048_576), (1_048_577, 1_048_576)] {
        let mut source = io::repeat(0x41).take(size);
        assert_eq!(read_input(&mut source).unwrap().len(), taken);
        // What lies past the limit is still in the source.
        assert_eq!(source.limit(), size - taken as u64);
    }
}

#[test]
fn scripts_and_keys_are_read_to_their_end() {
    for size in [0, 1, 1_048_577, 3_000_000] {
        assert_eq!(read_all(io::repeat(0x41).take(size)).unwrap().len(), size as usize);
    }
}

#[test]
fn read_error_is_passed_on() {
    assert!(read_input(Broken(0)).is_err());
    assert!(read_all(Broken(0)).is_err());
}
