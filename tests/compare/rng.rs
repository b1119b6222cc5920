//! A seeded random number generator (splitmix64).

pub struct Rng {
    state: u64,
}

const STEP: u64 = 0x9E37_79B9_7F4A_7C15;

impl Rng {
    /// The numbers of one stream: its own for each seed and number.
    pub fn new(seed: u64, stream: u64) -> Rng {
        let mut first = Rng { state: seed };
        let start = first.next();
        let mut second = Rng { state: start ^ stream };
        Rng { state: second.next() }
    }

    fn next(&mut self) -> u64 {
        self.state = self.state.wrapping_add(STEP);
        let mut mixed = self.state;
        mixed = (mixed ^ (mixed >> 30)).wrapping_mul(0xBF58_476D_1CE4_E5B9);
        mixed = (mixed ^ (mixed >> 27)).wrapping_mul(0x94D0_49BB_1331_11EB);
        mixed ^ (mixed >> 31)
    }

    /// From 0 to one below the bound, which is not 0.
    pub fn below(&mut self, bound: u64) -> u64 {
        (self.next() >> 16) % bound
    }

    /// From the first to the last, both possible.
    pub fn between(&mut self, first: u8, last: u8) -> u8 {
        first + self.below(last as u64 - first as u64 + 1) as u8
    }

    pub fn byte(&mut self) -> u8 {
        self.between(0, 255)
    }

    pub fn bytes(&mut self, length: usize) -> Vec<u8> {
        (0..length).map(|_| self.byte()).collect()
    }

    /// A first and a last place from `start` to `end`, the last 1 to
    /// `most` places after the first; at either end now and then.
    pub fn interval(&mut self, start: u8, end: u8, most: u8) -> (u8, u8) {
        let distance = self.between(1, most.min(end - start));
        let first = match self.below(6) {
            0 => start,
            1 => end - distance,
            _ => self.between(start, end - distance),
        };
        (first, first + distance)
    }

    /// True once in so many times.
    pub fn once_in(&mut self, times: u64) -> bool {
        self.below(times) == 0
    }

    pub fn pick(&mut self, choices: &[u8]) -> u8 {
        choices[self.below(choices.len() as u64) as usize]
    }
}
