//! The original's LU, solve, determinant and inverse over a record, `Dual` unless another is named,
//! and Jacobi over `Dual`, each checked against the counting copy.
use crate::counting;
use crate::original::Dual;
use crate::original::linalg::{LU, jacobi_eigenvalue, smallest_ev};
use crate::record::Record;
use crate::words::words;
use nalgebra::{Dyn, OMatrix, OVector, U1};

pub type Entry = Dual<f64>;

/// Records row by row.
pub type Entries<T = Entry> = Vec<T>;

/// What LU leaves: the factors row by row, the order, and the swap count.
#[derive(Clone, Debug)]
pub struct Factors<T = Entry> {
    pub n: usize,
    pub entries: Entries<T>,
    pub order: Vec<usize>,
    pub swaps: usize,
}

pub struct Eigen {
    pub values: Entries,
    pub vectors: Entries,
    pub sweeps: usize,
    pub rotations: usize,
    pub settled: bool,
}

/// The words of each record, for comparison and for writing.
pub fn entry_words<T: Record<f64>>(entry: &T) -> Vec<u64> {
    words(&entry.parts())
}

fn all_words<T: Record<f64>>(entries: &[T]) -> Vec<u64> {
    entries.iter().flat_map(entry_words).collect()
}

fn square<T: Copy>(n: usize, entries: &[T]) -> OMatrix<T, Dyn, Dyn> {
    OMatrix::from_iterator_generic(Dyn(n), Dyn(n), entries.iter().copied())
}

fn column<T: Copy>(entries: &[T]) -> OVector<T, Dyn> {
    OVector::from_iterator_generic(Dyn(entries.len()), U1, entries.iter().copied())
}

/// The factors, or the column at which the matrix is singular.
pub fn lu<T: Record<f64>>(n: usize, entries: &[T]) -> Result<Factors<T>, usize> {
    let original = LU::new(square(n, entries));
    let counted = counting::lu(square(n, entries));
    match (original, counted) {
        (Ok(original), Ok(counted)) => {
            let (a, p, swaps) = original.parts();
            assert_eq!(all_words(a.entries()), all_words(counted.a.entries()));
            assert_eq!((p.entries(), swaps), (counted.p.entries(), counted.p_count));
            Ok(Factors { n, entries: a.entries().to_vec(), order: p.entries().to_vec(), swaps })
        }
        (Err(_), Err(column)) => Err(column),
        _ => panic!("the counting copy of LU differs from the original"),
    }
}

impl<T: Record<f64>> Factors<T> {
    fn original(&self) -> LU<T, Dyn> {
        LU::from_parts(square(self.n, &self.entries), column(&self.order), self.swaps)
    }

    pub fn solve(&self, b: &[T]) -> Entries<T> {
        self.original().solve(&column(b)).entries().to_vec()
    }

    pub fn determinant(&self) -> T {
        self.original().determinant()
    }

    pub fn inverse(&self) -> Entries<T> {
        self.original().inverse().entries().to_vec()
    }
}

/// The original's eigenvalues and eigenvectors.
pub fn original_jacobi(n: usize, entries: &[Entry], limit: usize) -> (Entries, Entries) {
    let (values, vectors) = jacobi_eigenvalue(square(n, entries), limit);
    (values.entries().to_vec(), vectors.entries().to_vec())
}

pub fn jacobi(n: usize, entries: &[Entry], limit: usize) -> Eigen {
    let (values, vectors) = original_jacobi(n, entries, limit);
    let counted = counting::jacobi(square(n, entries), limit);
    assert_eq!(all_words(&values), all_words(counted.values.entries()));
    assert_eq!(all_words(&vectors), all_words(counted.vectors.entries()));
    assert!(counted.rotations <= counted.sweeps * (n * (n - 1) / 2));
    Eigen {
        values,
        vectors,
        sweeps: counted.sweeps,
        rotations: counted.rotations,
        settled: counted.settled,
    }
}

/// `smallest_ev`: the eigenvalue, then the vector.
pub fn smallest(n: usize, entries: &[Entry]) -> Entries {
    let (value, vector) = smallest_ev(square(n, entries));
    [&[value], vector.entries()].concat()
}

/// The original's solve over plain f64.
pub fn solve_plain(n: usize, entries: &[f64], b: &[f64]) -> Vec<f64> {
    let square = OMatrix::from_iterator_generic(Dyn(n), Dyn(n), entries.iter().copied());
    let factors = LU::new(square).expect("not singular");
    factors.solve(&column(b)).entries().to_vec()
}
