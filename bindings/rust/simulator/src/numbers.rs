//! Pseudo-random numbers (xorshift64*).

use std::num::NonZeroU8;

/// The numbers that a seed decides.
#[derive(Clone, PartialEq, Eq)]
pub struct Numbers(u64);

impl Numbers {
    /// The numbers of a seed.
    pub fn new(seed: u64) -> Self {
        // The generator must not start at 0.
        Numbers(seed.wrapping_mul(2).wrapping_add(1).wrapping_mul(0x9E37_79B9_7F4A_7C15))
    }

    fn next(&mut self) -> u32 {
        let mut x = self.0;
        x ^= x >> 12;
        x ^= x << 25;
        x ^= x >> 27;
        self.0 = x;
        (x.wrapping_mul(0x2545_F491_4F6C_DD1D) >> 32) as u32
    }

    /// A number below a limit.
    pub fn below(&mut self, limit: u32) -> u32 {
        self.next() % limit
    }

    /// Any byte.
    pub fn byte(&mut self) -> u8 {
        self.below(256) as u8
    }

    /// Any failure code.
    pub fn code(&mut self) -> NonZeroU8 {
        NonZeroU8::MIN.saturating_add(self.below(255) as u8)
    }

    /// True once in `n` times.
    pub fn one_in(&mut self, n: u32) -> bool {
        self.below(n) == 0
    }
}
