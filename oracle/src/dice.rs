//! A small seeded generator (xorshift), so that a seed gives the same cases every time and everywhere.

use std::cell::Cell;

pub struct Dice(Cell<u64>);

impl Dice {
    pub fn new(seed: u64) -> Dice {
        // Seeds that lie close together are spread apart; the state is never 0.
        let dice = Dice(Cell::new((seed + 1).wrapping_mul(0x9E37_79B9_7F4A_7C15) | 1));
        for _ in 0..8 {
            dice.next();
        }
        dice
    }

    pub fn next(&self) -> u64 {
        let mut n = self.0.get();
        n ^= n << 13;
        n ^= n >> 7;
        n ^= n << 17;
        self.0.set(n);
        n
    }

    pub fn below(&self, n: usize) -> usize {
        (self.next() % n as u64) as usize
    }

    /// From low to high, both included.
    pub fn range(&self, low: i32, high: i32) -> i32 {
        (low as i64 + self.below((high as i64 - low as i64 + 1) as usize) as i64) as i32
    }

    pub fn between(&self, low: usize, high: usize) -> usize {
        low + self.below(high - low + 1)
    }

    pub fn pick<T: Copy>(&self, from: &[T]) -> T {
        from[self.below(from.len())]
    }

    pub fn one_in(&self, n: usize) -> bool {
        self.below(n) == 0
    }

    pub fn shuffle<T>(&self, items: &mut [T]) {
        for i in (1..items.len()).rev() {
            items.swap(i, self.below(i + 1));
        }
    }
}
