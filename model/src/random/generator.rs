//! Random numbers, the same in every run.

/// A splitmix64 generator.
#[derive(Clone, Debug)]
pub struct Generator {
    state: u64,
}

impl Generator {
    /// The same seed gives the same numbers.
    pub fn new(seed: u64) -> Generator {
        Generator { state: seed }
    }

    /// A generator for each card of each seed; no two begin with the same number.
    pub fn of_card(seed: u32, number: u32) -> Generator {
        Generator::new(u64::from(seed) << u32::BITS | u64::from(number))
    }

    /// Any 64-bit number.
    pub fn any(&mut self) -> u64 {
        self.state = self.state.wrapping_add(0x9E37_79B9_7F4A_7C15);
        let mut z = self.state;
        z = (z ^ (z >> 30)).wrapping_mul(0xBF58_476D_1CE4_E5B9);
        z = (z ^ (z >> 27)).wrapping_mul(0x94D0_49BB_1331_11EB);
        z ^ (z >> 31)
    }

    /// A number from `low` to `high`, both included.
    pub fn between(&mut self, low: u64, high: u64) -> u64 {
        match (high - low).checked_add(1) {
            Some(span) => low + self.any() % span,
            None => self.any(),
        }
    }

    /// A place in a list of `length`.
    pub fn index(&mut self, length: usize) -> usize {
        self.between(0, length as u64 - 1) as usize
    }

    /// True once in `times`.
    pub fn once_in(&mut self, times: u64) -> bool {
        self.between(1, times) == times
    }

    /// A number up to `most` whose length in bits is even odds.
    pub fn sized(&mut self, most: u64) -> u64 {
        let bits = self.between(0, u64::from(u64::BITS - most.leading_zeros()));
        let value = if bits == 0 { 0 } else { self.any() >> (64 - bits) };
        value.min(most)
    }

    /// Often 0, the most or a neighbour of it, else of any size.
    pub fn at_limits(&mut self, most: u64) -> u64 {
        match self.index(5) {
            0 => 0,
            1 => most,
            2 => most.saturating_sub(1),
            3 => self.between(0, most),
            _ => self.sized(most),
        }
    }
}
