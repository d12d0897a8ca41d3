//! A small generator of numbers (splitmix64): one seed, one sequence.

pub struct Random(u64);

impl Random {
    pub fn new(seed: u64) -> Random {
        Random(seed)
    }

    pub fn wide(&mut self) -> u64 {
        self.0 = self.0.wrapping_add(0x9E37_79B9_7F4A_7C15);
        let mut word = self.0;
        word = (word ^ (word >> 30)).wrapping_mul(0xBF58_476D_1CE4_E5B9);
        word = (word ^ (word >> 27)).wrapping_mul(0x94D0_49BB_1331_11EB);
        word ^ (word >> 31)
    }

    pub fn word(&mut self) -> u32 {
        (self.wide() >> 32) as u32
    }

    /// A number below the bound.
    pub fn below(&mut self, bound: usize) -> usize {
        (self.wide() % bound as u64) as usize
    }

    /// A number from `low` to `high`, both included.
    pub fn between(&mut self, low: u32, high: u32) -> u32 {
        low + (self.wide() % (u64::from(high - low) + 1)) as u32
    }

    pub fn chance(&mut self, percent: usize) -> bool {
        self.below(100) < percent
    }

    pub fn pick<T: Clone>(&mut self, from: &[T]) -> T {
        from[self.below(from.len())].clone()
    }

    /// Any words; many of them small, as a store's own words are.
    pub fn junk(&mut self, length: usize) -> Vec<u32> {
        let word = |wide: u64| if wide.is_multiple_of(2) { (wide >> 32) as u32 } else { (wide >> 32) as u32 % 10 };
        (0..length).map(|_| word(self.wide())).collect()
    }
}
