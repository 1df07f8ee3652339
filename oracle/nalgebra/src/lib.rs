//! A stand-in for nalgebra with the names that `linalg.rs` uses. It only stores: the one sum
//! (`+=`) and the one negation go entry by entry.
use num_traits::{One, Zero};
use std::fmt::Debug;
use std::ops::{AddAssign, Index, IndexMut, Neg};

pub trait Dim: Copy + 'static {
    fn value(&self) -> usize;
}

/// A size known at run time.
#[derive(Copy, Clone, Debug)]
pub struct Dyn(pub usize);

impl Dim for Dyn {
    fn value(&self) -> usize {
        self.0
    }
}

/// The size one.
#[derive(Copy, Clone, Debug)]
pub struct U1;

impl Dim for U1 {
    fn value(&self) -> usize {
        1
    }
}

pub trait Scalar: 'static + Clone + PartialEq + Debug {}
impl<T: 'static + Clone + PartialEq + Debug> Scalar for T {}

pub mod allocator {
    pub trait Allocator<R, C = super::U1> {}
    impl<R, C> Allocator<R, C> for super::DefaultAllocator {}
}

pub struct DefaultAllocator;

/// Entries row by row.
#[derive(Clone, Debug)]
pub struct OMatrix<T, R, C> {
    rows: R,
    columns: C,
    entries: Vec<T>,
}

pub type OVector<T, D> = OMatrix<T, D, U1>;

impl<T: Clone, R: Dim, C: Dim> OMatrix<T, R, C> {
    pub fn from_fn_generic(rows: R, columns: C, entry: impl Fn(usize, usize) -> T) -> Self {
        let width = columns.value();
        let entries = (0..rows.value() * width).map(|k| entry(k / width, k % width)).collect();
        Self { rows, columns, entries }
    }

    pub fn from_iterator_generic(rows: R, columns: C, items: impl Iterator<Item = T>) -> Self {
        let entries: Vec<T> = items.collect();
        assert_eq!(entries.len(), rows.value() * columns.value());
        Self { rows, columns, entries }
    }

    pub fn from_element_generic(rows: R, columns: C, element: T) -> Self {
        Self::from_fn_generic(rows, columns, |_, _| element.clone())
    }

    pub fn zeros_generic(rows: R, columns: C) -> Self
    where
        T: Zero,
    {
        Self::from_fn_generic(rows, columns, |_, _| T::zero())
    }

    pub fn identity_generic(rows: R, columns: C) -> Self
    where
        T: Zero + One,
    {
        Self::from_fn_generic(rows, columns, |r, c| if r == c { T::one() } else { T::zero() })
    }

    pub fn shape_generic(&self) -> (R, C) {
        (self.rows, self.columns)
    }

    #[expect(clippy::len_without_is_empty)]
    pub fn len(&self) -> usize {
        self.entries.len()
    }

    /// The entries row by row.
    pub fn entries(&self) -> &[T] {
        &self.entries
    }

    pub fn swap(&mut self, one: (usize, usize), other: (usize, usize)) {
        let (one, other) = (self.place(one), self.place(other));
        self.entries.swap(one, other);
    }

    pub fn swap_rows(&mut self, one: usize, other: usize) {
        for c in 0..self.columns.value() {
            self.swap((one, c), (other, c));
        }
    }

    pub fn fill(&mut self, value: T) {
        self.entries.fill(value);
    }

    pub fn diagonal(&self) -> OVector<T, R> {
        OVector::from_fn_generic(self.rows, U1, |r, _| self[(r, r)].clone())
    }

    /// Owned already: `into_owned` is the identity.
    pub fn column(&self, c: usize) -> OVector<T, R> {
        OVector::from_fn_generic(self.rows, U1, |r, _| self[(r, c)].clone())
    }

    pub fn into_owned(self) -> Self {
        self
    }

    fn place(&self, (r, c): (usize, usize)) -> usize {
        assert!(r < self.rows.value() && c < self.columns.value());
        r * self.columns.value() + c
    }
}

impl<T: Clone, R: Dim, C: Dim> Index<(usize, usize)> for OMatrix<T, R, C> {
    type Output = T;
    fn index(&self, at: (usize, usize)) -> &T {
        &self.entries[self.place(at)]
    }
}

impl<T: Clone, R: Dim, C: Dim> IndexMut<(usize, usize)> for OMatrix<T, R, C> {
    fn index_mut(&mut self, at: (usize, usize)) -> &mut T {
        let place = self.place(at);
        &mut self.entries[place]
    }
}

impl<T, R, C> Index<usize> for OMatrix<T, R, C> {
    type Output = T;
    fn index(&self, at: usize) -> &T {
        &self.entries[at]
    }
}

impl<T, R, C> IndexMut<usize> for OMatrix<T, R, C> {
    fn index_mut(&mut self, at: usize) -> &mut T {
        &mut self.entries[at]
    }
}

impl<T: AddAssign + Clone, R, C> AddAssign<&Self> for OMatrix<T, R, C> {
    fn add_assign(&mut self, other: &Self) {
        for (mine, theirs) in self.entries.iter_mut().zip(&other.entries) {
            *mine += theirs.clone();
        }
    }
}

impl<T: Neg<Output = T>, R, C> Neg for OMatrix<T, R, C> {
    type Output = Self;
    fn neg(self) -> Self {
        let entries = self.entries.into_iter().map(|x| -x).collect();
        Self { rows: self.rows, columns: self.columns, entries }
    }
}
