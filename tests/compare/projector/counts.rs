//! What projectors have copied, and how often a taking was needed.

/// A taking in a frame.
pub struct Taking {
    pub marks: u32,
    pub before_closing: bool,
}

#[derive(Default)]
pub struct Counts {
    pub frames: u64,
    /// Lines copied.
    lines: u64,
    /// Takings without which the copy would have been wrong: they show
    /// that a missing mark is found.
    pub needed: u64,
    /// Of these, takings before a closing.
    pub needed_before_closing: u64,
}

impl Counts {
    /// Notes a frame: its takings, and the lines on which the copy from
    /// before differs from the screen.
    pub fn see(&mut self, taken: &[Taking], differing: u32) {
        let without = |left_out: usize| {
            let others = taken.iter().enumerate().filter(|(place, _)| *place != left_out);
            others.fold(0, |lines, (_, taking)| lines | taking.marks)
        };
        self.frames += 1;
        self.lines += u64::from(without(taken.len()).count_ones());
        for (place, taking) in taken.iter().enumerate() {
            let needed = differing & taking.marks & !without(place) != 0;
            self.needed += needed as u64;
            self.needed_before_closing += (needed && taking.before_closing) as u64;
        }
    }

    pub fn add(&mut self, more: &Counts) {
        self.frames += more.frames;
        self.lines += more.lines;
        self.needed += more.needed;
        self.needed_before_closing += more.needed_before_closing;
    }

    pub fn print(&self) {
        let all = 24 * self.frames;
        let share = 100.0 * self.lines as f64 / all.max(1) as f64;
        println!("lines copied: {} of {} in full redraws, {:.1} %", self.lines, all, share);
        println!(
            "without one taking's marks the copy would be wrong: {} times, {} of them before a closing",
            self.needed, self.needed_before_closing
        );
    }
}
