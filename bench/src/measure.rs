//! Rounds in which the sides of all comparisons take turns.

/// One side: it does the work once and tells its nanoseconds.
pub struct Side<'a> {
    pub run: Box<dyn FnMut() -> Result<u64, String> + 'a>,
    /// A slow side may take part in the first rounds only.
    pub most_rounds: usize,
}

/// Sides that do the same work.
pub struct Comparison<'a> {
    pub sides: Vec<Side<'a>>,
    /// How often in each round: short work is easily disturbed.
    pub repeats: usize,
}

/// The nanoseconds of one side, each time.
#[derive(Clone, Default)]
pub struct Times(Vec<u64>);

/// All comparisons in each round, and their sides one after the other. So
/// a busy while slows all alike, and spoils few rounds of each.
pub fn take_turns(
    rounds: usize,
    comparisons: &mut [Comparison],
) -> Result<Vec<Vec<Times>>, String> {
    let mut times: Vec<Vec<Times>> =
        comparisons.iter().map(|each| vec![Times::default(); each.sides.len()]).collect();
    for round in 0..rounds {
        for (comparison, times) in comparisons.iter_mut().zip(&mut times) {
            for _ in 0..comparison.repeats {
                comparison.turn(round, times)?;
            }
        }
        // Over the last such line, as there may be many rounds.
        eprint!("\rbench: round {} of {}", round + 1, rounds);
    }
    eprintln!();
    Ok(times)
}

impl Comparison<'_> {
    fn turn(&mut self, round: usize, times: &mut [Times]) -> Result<(), String> {
        for (side, times) in self.sides.iter_mut().zip(times) {
            if round < side.most_rounds {
                times.0.push((side.run)()?);
            }
        }
        Ok(())
    }
}

impl Times {
    /// The best: what other work disturbed least.
    pub fn best(&self) -> f64 {
        self.0.iter().min().map_or(0.0, |&best| best as f64)
    }

    /// The median over the best: 1 in a quiet run.
    fn spread(&self) -> f64 {
        let mut sorted = self.0.clone();
        sorted.sort_unstable();
        sorted.get(sorted.len() / 2).map_or(1.0, |&median| median as f64 / self.best())
    }
}

pub fn largest_spread(times: &[Times]) -> f64 {
    times.iter().map(Times::spread).fold(1.0, f64::max)
}
