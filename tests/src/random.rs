//! Random numbers and maps, the same in every run.

use crate::blocks::FREE;

/// The generator xorshift64.
pub struct Random(pub u64);

impl Random {
    /// The numbers of a seed: neighbouring seeds have numbers that are nothing like each other.
    pub fn of(seed: u64) -> Random {
        let mut x = seed.wrapping_add(0x9e3779b97f4a7c15);
        x = (x ^ x >> 30).wrapping_mul(0xbf58476d1ce4e5b9);
        x = (x ^ x >> 27).wrapping_mul(0x94d049bb133111eb);
        Random((x ^ x >> 31).max(1))
    }

    /// The number at hand; the one after it is then at hand.
    pub fn draw(&mut self) -> u64 {
        let x = self.0;
        self.0 = after(x);
        x
    }

    /// A number from low to high - 1.
    pub fn within(&mut self, low: usize, high: usize) -> usize {
        low + self.draw() as usize % (high - low)
    }

    /// True in `cases` of `of` cases.
    pub fn chance(&mut self, cases: usize, of: usize) -> bool {
        self.within(0, of) < cases
    }

    /// One of the items.
    pub fn one<T: Copy>(&mut self, items: &[T]) -> T {
        items[self.within(0, items.len())]
    }
}

/// The number after x.
fn after(mut x: u64) -> u64 {
    x ^= x << 13;
    x ^= x >> 7;
    x ^= x << 17;
    x
}

/// One number that changes with any of the words.
pub fn digest(words: &[u64]) -> u64 {
    words.iter().fold(1, |sum, word| after(sum ^ word))
}

/// The numbers of an example's seed.
fn seeded(seed: u64) -> Random {
    Random(after(seed * 2654435769 + 1))
}

/// A random map of w words, of a kind from 0 to 5. A block is free where its bits in three random words are all 1, or those in
/// two of them, and so on; or a whole word is free where the first of the three is odd.
pub fn words(w: usize, kind: usize, seed: u64) -> Vec<bool> {
    let random = &mut seeded(seed);
    let mut map = Vec::new();
    for _ in 0..w {
        let a = random.draw();
        let b = after(a);
        let c = after(b);
        map.extend((0..64).map(|j| {
            let [x, y, z] = [a, b, c].map(|word| word >> (63 - j) & 1 == 1);
            match kind {
                0 => x && y && z,
                1 => x && y,
                2 => x,
                3 => x || y,
                4 => x || y || z,
                _ => a % 2 == 1,
            }
        }));
    }
    map
}

/// Runs of 1 to `longest` blocks, free and taken by turns, to the end of a map of w words.
pub fn runs(w: usize, longest: usize, seed: u64) -> Vec<bool> {
    let random = &mut seeded(seed);
    let mut map = Vec::new();
    let mut state = FREE;
    while map.len() < 64 * w {
        let end = map.len() + random.within(1, longest + 1);
        map.resize(end.min(64 * w), state);
        state = !state;
    }
    map
}
