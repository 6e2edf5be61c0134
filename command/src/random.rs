//! Numbers by chance, for steps taken at random.

use std::collections::hash_map::RandomState;
use std::hash::{BuildHasher, Hasher};

/// A generator by shifts (xorshift64*).
pub struct Random(u64);

impl Random {
    /// One that gives the same numbers for the same seed; without a seed, others each time.
    pub fn new(seed: Option<u64>) -> Self {
        let seed = seed.unwrap_or_else(|| RandomState::new().build_hasher().finish());
        // a state of 0 would stay 0
        Random(seed.wrapping_mul(0x9e37_79b9_7f4a_7c15) | 1)
    }

    /// A number below a bound that is not 0.
    pub fn below(&mut self, bound: u64) -> u64 {
        self.0 ^= self.0 >> 12;
        self.0 ^= self.0 << 25;
        self.0 ^= self.0 >> 27;
        let drawn = self.0.wrapping_mul(0x2545_f491_4f6c_dd1d);
        ((u128::from(drawn) * u128::from(bound)) >> 64) as u64
    }
}
