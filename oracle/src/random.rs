//! splitmix64: a small generator of words, by seed.
use crate::words::float;

pub struct Random(u64);

impl Random {
    /// The seed of a run, and the name of what is drawn, so that files do not share a sequence.
    pub fn new(seed: u64, name: &str) -> Self {
        let start = name.bytes().fold(seed, |s, b| (s ^ u64::from(b)).wrapping_mul(0x100000001b3));
        Self(start)
    }

    pub fn word(&mut self) -> u64 {
        self.0 = self.0.wrapping_add(0x9e3779b97f4a7c15);
        let z = (self.0 ^ (self.0 >> 30)).wrapping_mul(0xbf58476d1ce4e5b9);
        let z = (z ^ (z >> 27)).wrapping_mul(0x94d049bb133111eb);
        z ^ (z >> 31)
    }

    /// From 0 to `end - 1`.
    pub fn below(&mut self, end: usize) -> usize {
        (self.word() % end as u64) as usize
    }

    pub fn choose<T: Copy>(&mut self, items: &[T]) -> T {
        items[self.below(items.len())]
    }

    /// True in `percent` of a hundred.
    pub fn chance(&mut self, percent: usize) -> bool {
        self.below(100) < percent
    }

    /// Any bits, a NaN as the one.
    pub fn bits(&mut self) -> f64 {
        float(self.word())
    }

    /// Either sign, a random significand, and an exponent of 2 from `low` to `high`.
    pub fn scaled(&mut self, low: i64, high: i64) -> f64 {
        let exponent = low + self.below((high - low + 1) as usize) as i64;
        let significand = self.word() & ((1 << 63) | ((1 << 52) - 1));
        f64::from_bits(significand | (((exponent + 1023) as u64) << 52))
    }

    /// Between -1 and 1.
    pub fn unit(&mut self) -> f64 {
        (self.word() >> 11) as f64 / (1u64 << 52) as f64 - 1.0
    }

    /// A whole number of small magnitude.
    pub fn small(&mut self, magnitude: usize) -> f64 {
        self.below(2 * magnitude + 1) as f64 - magnitude as f64
    }

    pub fn shuffle<T>(&mut self, items: &mut [T]) {
        for i in (1..items.len()).rev() {
            items.swap(i, self.below(i + 1));
        }
    }
}
