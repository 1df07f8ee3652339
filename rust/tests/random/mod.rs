//! Numbers that look random and are the same in every run.

pub struct Random(u64);

impl Random {
    pub fn new(seed: u64) -> Self {
        Self(seed)
    }

    /// splitmix64
    pub fn word(&mut self) -> u64 {
        self.0 = self.0.wrapping_add(0x9e3779b97f4a7c15);
        let word = (self.0 ^ self.0 >> 30).wrapping_mul(0xbf58476d1ce4e5b9);
        let word = (word ^ word >> 27).wrapping_mul(0x94d049bb133111eb);
        word ^ word >> 31
    }

    pub fn below(&mut self, bound: usize) -> usize {
        (self.word() % bound as u64) as usize
    }

    pub fn choose<T: Copy>(&mut self, from: &[T]) -> T {
        from[self.below(from.len())]
    }

    /// A size: mostly within reach of a matrix, now and then one whose square is too much.
    pub fn size(&mut self) -> usize {
        match self.below(4) {
            0 => self.choose(&[1 << 16, 1 << 31, 1 << 32, 1 << 33, 1 << 63, usize::MAX]),
            1 => self.choose(&[0, 1, 2, 31, 32, 33]),
            _ => self.below(41),
        }
    }

    /// A length: mostly the right one, now and then one less, one more, none or half.
    pub fn length(&mut self, right: usize) -> usize {
        match self.below(16) {
            0 => right + 1,
            1 => right.saturating_sub(1),
            2 => 0,
            3 => right / 2,
            _ => right,
        }
    }

    /// An order: mostly a permutation, now and then with one other number in it.
    pub fn order(&mut self, length: usize) -> Vec<usize> {
        let mut order: Vec<usize> = (0..length).collect();
        for place in (1..length).rev() {
            order.swap(place, self.below(place + 1));
        }
        if length > 0 && self.below(4) == 0 {
            let place = self.below(length);
            order[place] = self.choose(&[0, length / 2, length, 63, 64, 1 << 32, usize::MAX]);
        }
        order
    }

    /// A swap count, good for even orders, for odd ones, or for none.
    pub fn swaps(&mut self) -> usize {
        self.choose(&[0, 0, 1, 1, 2, 3, 31, 32, 33, 34, 1 << 32, usize::MAX])
    }
}

/// Whether an order is a permutation of 0..n-1, and if so its parity, by counting inversions.
pub fn parity(order: &[usize]) -> Option<usize> {
    let permutation = (0..order.len()).all(|row| order.contains(&row));
    let inversions =
        |place: usize| order[place..].iter().filter(|row| **row < order[place]).count();
    permutation.then(|| (0..order.len()).map(inversions).sum::<usize>() % 2)
}
