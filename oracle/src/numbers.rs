//! Pseudo-random numbers (splitmix64). Without a seed of its own every run makes the same lists.

use std::sync::OnceLock;

/// Makes other pseudo-random cases; none for the fixed lists and the fixed stream.
pub static SEED: OnceLock<u64> = OnceLock::new();

#[derive(Clone)]
pub struct Numbers(u64);

impl Numbers {
    /// The numbers of one list.
    pub fn new(list: u64) -> Self {
        let seed = SEED.get().copied().unwrap_or(0);
        Numbers(seed.wrapping_mul(0xD134_2543_DE82_EF95).wrapping_add(list))
    }

    pub fn next(&mut self) -> u64 {
        self.0 = self.0.wrapping_add(0x9E37_79B9_7F4A_7C15);
        let mut z = self.0;
        z = (z ^ (z >> 30)).wrapping_mul(0xBF58_476D_1CE4_E5B9);
        z = (z ^ (z >> 27)).wrapping_mul(0x94D0_49BB_1331_11EB);
        z ^ (z >> 31)
    }

    /// Other numbers, which these decide.
    pub fn split(&mut self) -> Self {
        Numbers(self.next())
    }

    pub fn below(&mut self, limit: u32) -> u32 {
        (self.next() % u64::from(limit)) as u32
    }

    pub fn byte(&mut self) -> u8 {
        self.below(256) as u8
    }

    /// True once in `n` times.
    pub fn one_in(&mut self, n: u32) -> bool {
        self.below(n) == 0
    }

    pub fn one_of<T: Copy>(&mut self, items: &[T]) -> T {
        items[self.below(items.len() as u32) as usize]
    }

    /// A number of at most `bits` bits, each bit length as often as any other.
    pub fn spread(&mut self, bits: u32) -> u32 {
        match self.below(bits + 1) {
            0 => 0,
            length => {
                let top = 1 << (length - 1);
                top | self.below(top)
            }
        }
    }
}

/// The last number of `first..=last` that meets `test`, which holds at `first` and, once false, stays false.
pub fn last_that(first: u32, last: u32, test: impl Fn(u32) -> bool) -> u32 {
    assert!(test(first), "the test holds at {first}");
    let (mut good, mut bad) = (u64::from(first), u64::from(last) + 1);
    while bad - good > 1 {
        let middle = (good + bad) / 2;
        if test(middle as u32) {
            good = middle;
        } else {
            bad = middle;
        }
    }
    good as u32
}
