//! Where two outputs differ.

/// How many bytes are shown where it is to be short.
const BRIEF: usize = 24;

/// The first line that differs, counted from 1, as it should be and as
/// it is, in words where there is no such line.
#[derive(Clone, Debug, PartialEq, Eq)]
pub struct Difference {
    pub line: usize,
    pub wanted: String,
    pub given: String,
}

/// None if the two are the same bytes.
pub fn first_difference(wanted: &[u8], given: &[u8]) -> Option<Difference> {
    if wanted == given {
        return None;
    }
    let mut wanted_lines = wanted.split_inclusive(|&byte| byte == b'\n');
    let mut given_lines = given.split_inclusive(|&byte| byte == b'\n');
    let mut line = 1;
    loop {
        let wanted_line = wanted_lines.next().unwrap_or(&[]);
        let given_line = given_lines.next().unwrap_or(&[]);
        if wanted_line != given_line {
            return Some(Difference { line, wanted: shown(wanted_line), given: shown(given_line) });
        }
        line += 1;
    }
}

/// The text of a line; its line feed is shown if it is missing, and
/// bytes that do not print are shown by their numbers.
fn shown(line: &[u8]) -> String {
    let (text, ending) = match line.split_last() {
        None => return "(no line)".to_string(),
        Some((b'\n', text)) => (text, ""),
        Some(_) => (line, " (no line feed)"),
    };
    let text: String =
        text.iter().flat_map(|&byte| std::ascii::escape_default(byte)).map(char::from).collect();
    text + ending
}

/// The bytes by their numbers.
pub fn hex(bytes: &[u8]) -> String {
    if bytes.is_empty() {
        return "(empty)".to_string();
    }
    let digits: Vec<String> = bytes.iter().map(|byte| format!("{:02x}", byte)).collect();
    digits.join(" ")
}

/// The first bytes by their numbers, and two dots if there are more.
pub fn brief_hex(bytes: &[u8]) -> String {
    if bytes.len() <= BRIEF {
        return hex(bytes);
    }
    hex(&bytes[..BRIEF]) + " .."
}

impl Difference {
    /// In one short line: for a line of cells only the first that differs.
    pub fn brief(&self) -> String {
        let (wanted, given) = (self.wanted.as_bytes(), self.given.as_bytes());
        if self.line <= 24 && wanted.len() == 160 && given.len() == 160 {
            for column in 0..80 {
                let cell = 2 * column..2 * column + 2;
                if wanted[cell.clone()] != given[cell.clone()] {
                    return format!(
                        "screen line {} differs from column {} on: {} instead of {}",
                        self.line - 1,
                        column,
                        &self.given[cell.clone()],
                        &self.wanted[cell]
                    );
                }
            }
        }
        format!("output line {} is '{}' instead of '{}'", self.line, self.given, self.wanted)
    }
}
