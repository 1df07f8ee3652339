//! LU and Jacobi over matrices of records.
use crate::layout::{floats, floats_mut};
use crate::{exports, Dual64, DualNum, HyperDual64, Matrix, Refusal};

mod library {
    /// The library's functions for matrices of one kind of record; what the lengths are, and when
    /// what is written, is as in [`exports`](crate::exports).
    pub trait Entries: Sized {
        fn lu(a: &[Self], f: &mut [Self], order: &mut [usize], swaps_or_column: &mut usize) -> u32;
        fn solve(factors: &[Self], order: &[usize], b: &[Self], x: &mut [Self]) -> u32;
        fn determinant(f: &[Self], order: &[usize], swaps: usize, out: &mut Self) -> u32;
        fn inverse(factors: &[Self], order: &[usize], out: &mut [Self]) -> u32;
        fn market_read(text: &[u8], out: &mut [Self], n: &mut usize) -> u32;
        fn market_write(n: usize, a: &[Self], text: &mut [u8], length: &mut usize) -> u32;
    }
}

/// Records that matrices for [`LU`] and for Matrix Market texts are made of: [`Dual64`] and
/// [`HyperDual64`]. No other type can implement it.
pub trait Entry: DualNum + library::Entries {}

macro_rules! entry {
    ($record:ident, [$($part:ident),*],
        $lu:ident, $solve:ident, $determinant:ident, $inverse:ident,
        $market_read:ident, $market_write:ident) => {
        impl Entry for $record {}

        impl library::Entries for $record {
            fn lu(
                a: &[Self],
                f: &mut [Self],
                order: &mut [usize],
                swaps_or_column: &mut usize,
            ) -> u32 {
                exports::$lu(order.len(), floats(a), floats_mut(f), order, swaps_or_column)
            }

            fn solve(factors: &[Self], order: &[usize], b: &[Self], x: &mut [Self]) -> u32 {
                exports::$solve(order.len(), floats(factors), order, floats(b), floats_mut(x))
            }

            fn determinant(f: &[Self], order: &[usize], swaps: usize, out: &mut Self) -> u32 {
                let mut det = [$(out.$part),*];
                let number = exports::$determinant(order.len(), floats(f), order, swaps, &mut det);
                let [$($part),*] = det;
                *out = Self { $($part),* };
                number
            }

            fn inverse(factors: &[Self], order: &[usize], out: &mut [Self]) -> u32 {
                exports::$inverse(order.len(), floats(factors), order, floats_mut(out))
            }

            fn market_read(text: &[u8], out: &mut [Self], n: &mut usize) -> u32 {
                exports::$market_read(text, floats_mut(out), n)
            }

            fn market_write(n: usize, a: &[Self], text: &mut [u8], length: &mut usize) -> u32 {
                exports::$market_write(n, floats(a), text, length)
            }
        }
    };
}

entry!(Dual64, [re, eps], lu, solve, determinant, inverse, market_read, market_write);
entry!(
    HyperDual64,
    [re, eps1, eps2, eps1eps2],
    hyperdual_lu,
    hyperdual_solve,
    hyperdual_determinant,
    hyperdual_inverse,
    hyperdual_market_read,
    hyperdual_market_write
);

/// LU decomposition of a square matrix.
///
/// ```
/// use evindrast::{Dual64, Matrix, Refusal, LU};
/// # fn main() -> Result<(), Refusal> {
/// let x = |re| Dual64::from_re(re);
/// // P1
/// let a = Matrix::from_rows([[Dual64::new(0.0, 1.0), x(2.0)], [x(1.0), x(0.0)]]);
/// let lu = LU::new(&a)?;
/// assert_eq!((lu.order(), lu.swaps()), (&[1, 0][..], 1));
/// assert_eq!(lu.factors()[(1, 0)].eps, 1.0);
///
/// let solution = lu.solve(&[x(4.0), x(3.0)])?;
/// assert_eq!((solution[0].re, solution[1].re, solution[1].eps), (3.0, 2.0, -1.5));
///
/// // P4
/// let a = Matrix::from_rows([[x(1.0), x(2.0)], [x(1.0), x(2.0)]]);
/// assert_eq!(LU::new(&a).unwrap_err(), Refusal::Singular { column: 1 });
/// # Ok(())
/// # }
/// ```
#[derive(Clone, Debug)]
pub struct LU<T> {
    factors: Matrix<T>,
    order: Vec<usize>,
    swaps: usize,
}

impl<T: Entry> LU<T> {
    /// Factors a matrix.
    ///
    /// # Errors
    /// [`Refusal::Singular`] with the column in which no entry left for a pivot exceeds zero in the
    /// magnitude of its real part.
    pub fn new(a: &Matrix<T>) -> Result<Self, Refusal> {
        let mut factors = Matrix::zeros(a.n());
        let mut order = vec![0; a.n()];
        let mut swaps_or_column = 0;
        let number = T::lu(a.entries(), factors.entries_mut(), &mut order, &mut swaps_or_column);
        Refusal::check(number, swaps_or_column)?;
        Ok(Self { factors, order, swaps: swaps_or_column })
    }

    /// From factors, order and swap count, be they LU's own or not.
    ///
    /// # Errors
    /// [`Refusal::WrongLength`] where the order has not n entries, then [`Refusal::NotAnOrder`], then
    /// [`Refusal::WrongSwaps`].
    pub fn from_parts(
        factors: Matrix<T>,
        order: Vec<usize>,
        swaps: usize,
    ) -> Result<Self, Refusal> {
        // the calls below take the order's length for n
        if factors.n() != order.len() {
            return Err(Refusal::WrongLength);
        }
        // the determinant checks all that solve and inverse check
        let number = T::determinant(factors.entries(), &order, swaps, &mut T::zero());
        Refusal::check(number, 0)?;
        Ok(Self { factors, order, swaps })
    }

    /// Both factors in one matrix; the lower one's diagonal, all ones, is left out.
    pub fn factors(&self) -> &Matrix<T> {
        &self.factors
    }

    /// The row of the matrix that each row of the factors came from.
    pub fn order(&self) -> &[usize] {
        &self.order
    }

    /// How often two rows were exchanged.
    pub fn swaps(&self) -> usize {
        self.swaps
    }

    /// x with a·x = b.
    ///
    /// # Errors
    /// [`Refusal::WrongLength`] where b has not n entries.
    pub fn solve(&self, b: &[T]) -> Result<Vec<T>, Refusal> {
        let mut x = vec![T::ZERO; self.order.len()];
        let number = T::solve(self.factors.entries(), &self.order, b, &mut x);
        Refusal::check(number, 0)?;
        Ok(x)
    }

    /// The determinant.
    ///
    /// ```
    /// use evindrast::{Dual64, Matrix, LU};
    /// // P6
    /// let det = LU::<Dual64>::new(&Matrix::zeros(0)).unwrap().determinant();
    /// assert_eq!((det.re, det.eps), (1.0, 0.0));
    /// ```
    pub fn determinant(&self) -> T {
        let mut det = T::ZERO;
        let number = T::determinant(self.factors.entries(), &self.order, self.swaps, &mut det);
        assert_eq!(number, 0, "the parts were checked when they were taken");
        det
    }

    /// The inverse.
    pub fn inverse(&self) -> Matrix<T> {
        let mut out = Matrix::zeros(self.order.len());
        let number = T::inverse(self.factors.entries(), &self.order, out.entries_mut());
        assert_eq!(number, 0, "the parts were checked when they were taken");
        out
    }
}

/// What [`jacobi_eigenvalue`] gives.
#[derive(Clone, Debug)]
#[non_exhaustive]
pub struct Eigen<T> {
    /// The eigenvalues, ascending by their real parts.
    pub values: Vec<T>,
    /// The eigenvectors, a column each.
    pub vectors: Matrix<T>,
    /// How many sweeps did not stop at a zero threshold; where it is the limit, more sweeps might
    /// change the rest.
    pub sweeps: usize,
}

/// Eigenvalues and eigenvectors of a symmetric matrix in at most `max_iter` sweeps. What stands
/// below the diagonal is not read.
///
/// ```
/// use evindrast::{jacobi_eigenvalue, Dual64, Matrix};
/// let x = |re| Dual64::from_re(re);
/// // P12
/// let a = Matrix::from_rows([[x(3.0), x(0.0)], [x(0.0), x(1.0)]]);
/// let eigen = jacobi_eigenvalue(&a, 50).unwrap();
/// assert_eq!((eigen.values[0].re, eigen.values[1].re, eigen.sweeps), (1.0, 3.0, 0));
/// assert_eq!((eigen.vectors[(1, 0)].re, eigen.vectors[(0, 1)].re), (1.0, 1.0));
/// ```
///
/// # Errors
/// [`Refusal::Empty`] for a matrix without rows, then [`Refusal::LimitTooLarge`] for more than 1,000
/// sweeps.
pub fn jacobi_eigenvalue(a: &Matrix<Dual64>, max_iter: usize) -> Result<Eigen<Dual64>, Refusal> {
    let n = a.n();
    let mut values = vec![Dual64::ZERO; n];
    let mut vectors = Matrix::zeros(n);
    let mut sweeps = 0;
    let number = exports::jacobi_eigenvalue(
        n,
        floats(a.entries()),
        max_iter,
        floats_mut(&mut values),
        floats_mut(vectors.entries_mut()),
        &mut sweeps,
    );
    Refusal::check(number, 0)?;
    Ok(Eigen { values, vectors, sweeps })
}
