//! The inputs, each in the port's form and in the Rust's.
use compare::random::Random;
use compare::record::{Kind, Record};
use nalgebra::{Dyn, OMatrix, OVector, U1};

pub type Entry<K> = <K as Kind>::Record<f64>;
pub type Square<K> = OMatrix<Entry<K>, Dyn, Dyn>;
pub type Column<K> = OVector<Entry<K>, Dyn>;

/// A matrix of order n that is far from singular and needs swaps, a right side, and a symmetric matrix: the floats of
/// their records.
pub struct Input {
    pub n: usize,
    pub a: Vec<f64>,
    pub b: Vec<f64>,
    pub symmetric: Vec<f64>,
}

impl Input {
    pub fn new<K: Kind>(random: &mut Random, n: usize) -> Self {
        let width = K::PARTS;
        let mut large: Vec<usize> = (0..n).collect();
        random.shuffle(&mut large);
        let mut a = floats(random, n * n * width);
        (0..n).for_each(|r| a[(r * n + large[r]) * width] += n as f64);
        let mut symmetric = floats(random, n * n * width);
        for r in 0..n {
            for c in 0..r {
                let upper = (c * n + r) * width;
                symmetric.copy_within(upper..upper + width, (r * n + c) * width);
            }
        }
        Self { n, a, b: floats(random, n * width), symmetric }
    }
}

/// Parts between -1 and 1.
fn floats(random: &mut Random, count: usize) -> Vec<f64> {
    (0..count).map(|_| random.unit()).collect()
}

/// Records as the Rust stores them.
pub fn square<K: Kind>(n: usize, floats: &[f64]) -> Square<K> {
    OMatrix::from_iterator_generic(Dyn(n), Dyn(n), records::<K>(floats))
}

pub fn column<K: Kind>(n: usize, floats: &[f64]) -> Column<K> {
    OVector::from_iterator_generic(Dyn(n), U1, records::<K>(floats))
}

fn records<K: Kind>(floats: &[f64]) -> impl Iterator<Item = Entry<K>> {
    floats.chunks(K::PARTS).map(Record::<f64>::of)
}

/// Records as the port takes them.
pub fn flat<K: Kind>(entries: &[Entry<K>]) -> Vec<f64> {
    entries.iter().flat_map(Record::<f64>::parts).collect()
}

/// Floats of every magnitude that have a root.
pub fn roots(random: &mut Random, count: usize) -> Vec<f64> {
    (0..count).map(|_| random.scaled(-1022, 1023).abs()).collect()
}
