//! The dice of a corpus: a seed gives the same files again.

use std::cell::Cell;

/// splitmix64
pub struct Dice(Cell<u64>);

impl Dice {
    pub fn new(seed: u64) -> Dice {
        Dice(Cell::new(seed))
    }
    pub fn roll(&self) -> u64 {
        let mut z = self.0.get().wrapping_add(0x9E37_79B9_7F4A_7C15);
        self.0.set(z);
        z = (z ^ z >> 30).wrapping_mul(0xBF58_476D_1CE4_E5B9);
        z = (z ^ z >> 27).wrapping_mul(0x94D0_49BB_1331_11EB);
        z ^ z >> 31
    }
    pub fn below(&self, n: u32) -> u32 {
        (self.roll() >> 11) as u32 % n
    }
    pub fn chance(&self, percent: u32) -> bool {
        self.below(100) < percent
    }
    pub fn of<T: Copy>(&self, from: &[T]) -> T {
        from[self.below(from.len() as u32) as usize]
    }
    /// An index drawn by weights.
    pub fn weighed(&self, weights: &[u32]) -> usize {
        let mut left = self.below(weights.iter().sum());
        weights.iter().position(|&w| {
            let here = left < w;
            left = left.wrapping_sub(w);
            here
        }).unwrap()
    }
    pub fn bytes(&self) -> [u8; 16] {
        std::array::from_fn(|_| self.roll() as u8)
    }
}
