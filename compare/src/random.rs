//! A seeded source of random numbers: the same seed gives the same numbers.

/// An xorshift generator of 64 bits.
#[derive(Clone, Debug)]
pub struct Random {
    state: u64,
}

impl Random {
    /// The generator of a seed.
    pub fn new(seed: u64) -> Random {
        // An xorshift never leaves 0; the multiplier spreads neighbouring seeds.
        let state = seed.wrapping_add(1).wrapping_mul(0x9E37_79B9_7F4A_7C15);
        Random {
            state: state.max(1),
        }
    }

    /// The next number of 64 bits.
    pub fn number(&mut self) -> u64 {
        self.state ^= self.state << 13;
        self.state ^= self.state >> 7;
        self.state ^= self.state << 17;
        self.state
    }

    /// The next number of 32 bits.
    pub fn word(&mut self) -> u32 {
        (self.number() >> 32) as u32
    }

    /// A number below `limit`, or 0 if the limit is 0.
    pub fn below(&mut self, limit: u32) -> u32 {
        ((u64::from(self.word()) * u64::from(limit)) >> 32) as u32
    }

    /// A number from `first` to `last`, or `first` if they are in the wrong order.
    pub fn between(&mut self, first: i32, last: i32) -> i32 {
        let count = (i64::from(last) - i64::from(first) + 1).clamp(0, i64::from(u32::MAX)) as u32;
        first.wrapping_add(self.below(count) as i32)
    }

    /// True once in `count` times.
    pub fn once_in(&mut self, count: u32) -> bool {
        self.below(count) == 0
    }

    /// One of the choices, or 0 if there is none.
    pub fn pick(&mut self, choices: &[u32]) -> u32 {
        let place = self.below(choices.len() as u32) as usize;
        choices.get(place).copied().unwrap_or(0)
    }
}
