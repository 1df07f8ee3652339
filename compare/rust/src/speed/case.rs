//! One input in both forms, and whether both sides give the same words for it.
use crate::inputs::{Column, Entry, Input, Square, column, flat, square};
use crate::port::Port;
use compare::original::linalg::{LU, jacobi_eigenvalue};
use compare::record::DualKind;
use compare::words::words;
use evindrast::exports;
use nalgebra::Dyn;

/// Sweeps at most.
pub const LIMIT: usize = 50;

/// An input in both forms, with its factors as each side made them.
pub struct Case<K: Port> {
    pub n: usize,
    pub a: Vec<f64>,
    pub b: Vec<f64>,
    pub symmetric: Vec<f64>,
    pub factors: Vec<f64>,
    pub order: Vec<usize>,
    pub swaps: usize,
    pub rust_a: Square<K>,
    pub rust_b: Column<K>,
    pub rust_symmetric: Square<K>,
    pub rust_lu: LU<Entry<K>, Dyn>,
}

impl<K: Port> Case<K> {
    pub fn new(input: Input) -> Self {
        let Input { n, a, b, symmetric } = input;
        let (mut factors, mut order, mut swaps) = (vec![0.0; a.len()], vec![0; n], 0);
        assert_eq!(K::lu(n, &a, &mut factors, &mut order, &mut swaps), 0);
        let rust_a = square::<K>(n, &a);
        let rust_lu = LU::new(rust_a.clone()).expect("not singular");
        let (rust_b, rust_symmetric) = (column::<K>(n, &b), square::<K>(n, &symmetric));
        Self { n, a, b, symmetric, factors, order, swaps, rust_a, rust_b, rust_symmetric, rust_lu }
    }

    /// Panics where the two differ in a word; else how many words were compared.
    pub fn compare(&self) -> usize {
        let n = self.n;
        let mut compared = 0;
        let mut same = |what: &str, port: &[f64], rust: &[Entry<K>]| {
            assert_eq!(words(port), words(&flat::<K>(rust)), "{what} of {} at n = {n}", K::NAME);
            compared += port.len();
        };

        let (factors, order, swaps) = self.rust_lu.parts();
        same("LU", &self.factors, factors.entries());
        assert_eq!((&self.order[..], self.swaps), (order.entries(), swaps), "LU at n = {n}");

        let mut x = vec![0.0; self.b.len()];
        assert_eq!(K::solve(n, &self.factors, &self.order, &self.b, &mut x), 0);
        same("solve", &x, self.rust_lu.solve(&self.rust_b).entries());

        let mut det = vec![0.0; K::PARTS];
        assert_eq!(K::determinant(n, &self.factors, &self.order, self.swaps, &mut det), 0);
        same("determinant", &det, &[self.rust_lu.determinant()]);

        let mut out = vec![0.0; self.a.len()];
        assert_eq!(K::inverse(n, &self.factors, &self.order, &mut out), 0);
        same("inverse", &out, self.rust_lu.inverse().entries());
        compared
    }
}

impl Case<DualKind> {
    /// The same of Jacobi.
    pub fn compare_eigenvalues(&self) -> usize {
        let n = self.n;
        let (mut values, mut vectors) = (vec![0.0; self.b.len()], vec![0.0; self.a.len()]);
        let (a, mut sweeps) = (&self.symmetric, 0);
        let number =
            exports::jacobi_eigenvalue(n, a, LIMIT, &mut values, &mut vectors, &mut sweeps);
        assert_eq!(number, 0);
        let (rust_values, rust_vectors) = jacobi_eigenvalue(self.rust_symmetric.clone(), LIMIT);
        for (port, rust) in [(&values, rust_values.entries()), (&vectors, rust_vectors.entries())] {
            assert_eq!(words(port), words(&flat::<DualKind>(rust)), "Jacobi at n = {n}");
        }
        values.len() + vectors.len()
    }
}
