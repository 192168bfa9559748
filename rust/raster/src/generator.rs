//! A fixed source of chance: the same draws in every run, so that a failure can be seen again.

/// A linear congruential generator of 64 bits.
pub struct Generator(u64);

impl Generator {
    pub fn new(seed: u64) -> Generator {
        Generator(seed)
    }

    /// The next 31 bits drawn.
    fn bits(&mut self) -> u64 {
        self.0 = self.0.wrapping_mul(6_364_136_223_846_793_005).wrapping_add(1_442_695_040_888_963_407);
        // Only the high bits are used: the low ones of such a generator soon repeat.
        self.0 >> 33
    }

    /// The next number drawn, from 0 to below the bound.
    pub fn below(&mut self, bound: usize) -> usize {
        self.bits() as usize % bound
    }

    /// A word of which every bit is drawn.
    pub fn word(&mut self) -> u64 {
        self.bits() << 62 ^ self.bits() << 31 ^ self.bits()
    }

    /// A number from the first to the last.
    pub fn between(&mut self, first: i64, last: i64) -> i64 {
        first + (self.word() % (last - first + 1) as u64) as i64
    }

    /// True once in so many draws.
    pub fn one_in(&mut self, count: usize) -> bool {
        self.below(count) == 0
    }

    /// One of the choices.
    pub fn pick<Choice: Copy>(&mut self, choices: &[Choice]) -> Choice {
        choices[self.below(choices.len())]
    }
}
