//! Which control codes clients have executed, and which of them have
//! marked lines.

use crate::console::write;
use crate::pairs::command_completed;
use crate::port::Port;

/// All printing codes count as one.
const PRINTING: usize = 32;

/// The codes that can store cells.
const STORING: [usize; 16] = [
    0x03, 0x05, 0x08, 0x0A, 0x0B, 0x0C, 0x0D, 0x10, 0x13, 0x16, 0x17, 0x1A, 0x1C, 0x1D, 0x1F,
    PRINTING,
];

/// The codes that scroll at an edge.
const SCROLLING: [usize; 7] = [0x08, 0x0A, 0x0D, 0x10, 0x1C, 0x1F, PRINTING];

/// The codes that replace the state or the viewport, and leave the marks.
const KEEPING: [usize; 3] = [0x01, 0x02, 0x04];

/// How often a code was executed, and how often it was met so.
#[derive(Clone, Copy, Default)]
struct Times {
    executed: u64,
    /// It marked a line that was not marked.
    marked: u64,
    /// The same for a line that is not the cursor's.
    marked_others: u64,
    /// It found marks.
    found: u64,
}

pub struct Codes {
    times: [Times; PRINTING + 1],
}

impl Default for Codes {
    fn default() -> Codes {
        Codes { times: [Times::default(); PRINTING + 1] }
    }
}

impl Codes {
    /// Notes the codes of a write that is served, byte by byte on a copy
    /// of its screen. A code counts once it has all of its parameters.
    pub fn follow(&mut self, port: &Port, screen: &[u8], bytes: &[u8]) {
        let mut port = *port;
        let mut screen = screen.to_vec();
        for &byte in bytes {
            let code = executed(&port, byte);
            let (_, after, _) = write(port, &mut screen, &[byte]);
            if let Some(code) = code {
                self.note(code, &port, after.marks & !port.marks);
            }
            port = after;
        }
    }

    fn note(&mut self, code: usize, before: &Port, marked: u32) {
        let others = marked & !(1 << before.state.cursor.line);
        let times = &mut self.times[code];
        times.executed += 1;
        times.marked += (marked != 0) as u64;
        times.marked_others += (others != 0) as u64;
        times.found += (before.marks != 0) as u64;
    }

    /// The names of all that should have been met and was not.
    pub fn missing(&self) -> Vec<String> {
        let mut missing = Vec::new();
        let mut see = |code: usize, what: &str, times: u64| {
            if times == 0 {
                missing.push(format!("write: {}{}", name(code), what));
            }
        };
        for code in 0..PRINTING {
            see(code, "", self.times[code].executed);
        }
        for code in STORING {
            see(code, " marks a line", self.times[code].marked);
        }
        for code in SCROLLING {
            see(code, " marks other lines by a scroll", self.times[code].marked_others);
        }
        for code in KEEPING {
            see(code, " with marks held", self.times[code].found);
        }
        missing
    }
}

/// The code that is executed once the port has taken this byte.
fn executed(port: &Port, byte: u8) -> Option<usize> {
    if port.waiting == 0 && byte >= 0x20 {
        return Some(PRINTING);
    }
    command_completed(port, byte).map(usize::from)
}

fn name(code: usize) -> String {
    if code == PRINTING {
        return "a printing code".to_string();
    }
    format!("code ${:02X}", code)
}
