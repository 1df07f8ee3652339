//! Square matrices, row by row.
use crate::{DualNum, Refusal};
use std::ops::{Index, IndexMut};

/// The most rows that a matrix has, document 01's limit: 32.
pub const MAX_N: usize = 32;

/// A square matrix of at most [`MAX_N`] rows, its entries row by row. Sizes are checked before
/// anything is allocated, so that every matrix is one that the library takes.
///
/// ```
/// use evindrast::{Dual64, Matrix, Refusal};
/// let a = Matrix::from_fn(2, |r, c| Dual64::from_re((2 * r + c) as f64));
/// assert_eq!(a[(1, 0)].re, 2.0);
/// assert_eq!(a.row(1).len(), 2);
///
/// // where the size is not known to be good
/// assert_eq!(Matrix::<Dual64>::try_zeros(1 << 32).unwrap_err(), Refusal::TooLarge);
/// ```
#[derive(Clone, Debug)]
pub struct Matrix<T> {
    n: usize,
    entries: Vec<T>,
}

/// Whether N rows are a matrix, decided when the program is compiled.
struct Rows<const N: usize>;

impl<const N: usize> Rows<N> {
    const FIT: () = assert!(N <= MAX_N, "refused 1: a matrix has at most 32 rows");
}

impl<T: DualNum> Matrix<T> {
    /// From its rows. More than 32 do not compile:
    ///
    /// ```compile_fail
    /// # use evindrast::{Dual64, Matrix};
    /// Matrix::from_rows([[Dual64::from_re(1.0); 33]; 33]);
    /// ```
    ///
    /// ```
    /// # use evindrast::{Dual64, Matrix};
    /// Matrix::from_rows([[Dual64::from_re(1.0); 32]; 32]);
    /// ```
    pub fn from_rows<const N: usize>(rows: [[T; N]; N]) -> Self {
        #[allow(clippy::let_unit_value)]
        let () = Rows::<N>::FIT;
        Self { n: N, entries: rows.concat() }
    }

    /// From rows whose number is not known before the program runs.
    ///
    /// ```
    /// use evindrast::{Dual64, Matrix, Refusal};
    /// let x = Dual64::from_re(1.0);
    /// assert_eq!(Matrix::try_from_rows(&[[x, x], [x, x]]).unwrap().n(), 2);
    /// assert_eq!(Matrix::try_from_rows(&[vec![x], vec![x, x, x]]).unwrap_err(), Refusal::WrongLength);
    /// ```
    ///
    /// # Errors
    /// [`Refusal::TooLarge`] for more than 32 rows, whatever they hold; [`Refusal::WrongLength`]
    /// where a row has not as many entries as there are rows.
    pub fn try_from_rows<R: AsRef<[T]>>(rows: &[R]) -> Result<Self, Refusal> {
        let n = size(rows.len())?;
        if rows.iter().any(|row| row.as_ref().len() != n) {
            return Err(Refusal::WrongLength);
        }
        let entries = rows.iter().flat_map(|row| row.as_ref()).copied().collect();
        Self::from_entries(n, entries)
    }

    /// The entry at row r and column c is `entry(r, c)`.
    ///
    /// # Panics
    /// For more than 32 rows (refusal 1). [`try_from_fn`](Self::try_from_fn) gives the refusal
    /// instead.
    #[track_caller]
    pub fn from_fn(n: usize, entry: impl Fn(usize, usize) -> T) -> Self {
        made(Self::try_from_fn(n, entry))
    }

    /// [`from_fn`](Self::from_fn), or its refusal.
    ///
    /// # Errors
    /// [`Refusal::TooLarge`] for more than 32 rows; `entry` is not called.
    pub fn try_from_fn(n: usize, entry: impl Fn(usize, usize) -> T) -> Result<Self, Refusal> {
        let n = size(n)?;
        let entries = (0..n * n).map(|place| entry(place / n, place % n)).collect();
        Ok(Self { n, entries })
    }

    /// From n·n entries row by row.
    ///
    /// # Errors
    /// [`Refusal::TooLarge`] for more than 32 rows, then [`Refusal::WrongLength`] for another number
    /// of entries.
    pub fn from_entries(n: usize, entries: Vec<T>) -> Result<Self, Refusal> {
        let n = size(n)?;
        if entries.len() != n * n {
            return Err(Refusal::WrongLength);
        }
        Ok(Self { n, entries })
    }

    /// All entries zero.
    ///
    /// # Panics
    /// For more than 32 rows (refusal 1). [`try_zeros`](Self::try_zeros) gives the refusal instead.
    #[track_caller]
    pub fn zeros(n: usize) -> Self {
        made(Self::try_zeros(n))
    }

    /// [`zeros`](Self::zeros), or its refusal.
    ///
    /// # Errors
    /// [`Refusal::TooLarge`] for more than 32 rows.
    pub fn try_zeros(n: usize) -> Result<Self, Refusal> {
        let n = size(n)?;
        Ok(Self { n, entries: vec![T::ZERO; n * n] })
    }

    /// The number of rows.
    pub fn n(&self) -> usize {
        self.n
    }

    /// The entries row by row.
    pub fn entries(&self) -> &[T] {
        &self.entries
    }

    /// The entries row by row, to be written.
    pub fn entries_mut(&mut self) -> &mut [T] {
        &mut self.entries
    }

    /// Row r.
    ///
    /// # Panics
    /// Where there is no row r.
    #[track_caller]
    pub fn row(&self, r: usize) -> &[T] {
        inside("row", r, self.n);
        &self.entries[r * self.n..][..self.n]
    }

    /// Column c.
    ///
    /// # Panics
    /// Where there is no column c.
    #[track_caller]
    pub fn column(&self, c: usize) -> Vec<T> {
        inside("column", c, self.n);
        (0..self.n).map(|r| self[(r, c)]).collect()
    }
}

/// A number of rows that a matrix has: its square neither overflows nor is much to allocate.
fn size(n: usize) -> Result<usize, Refusal> {
    if n > MAX_N {
        return Err(Refusal::TooLarge);
    }
    Ok(n)
}

/// The matrix, for callers who know that its size is good.
#[track_caller]
fn made<T>(matrix: Result<Matrix<T>, Refusal>) -> Matrix<T> {
    match matrix {
        Ok(matrix) => matrix,
        Err(refusal) => panic!("{refusal}"),
    }
}

/// Checked before a place is computed, which a great number would wrap to the place of another.
#[track_caller]
fn inside(what: &str, number: usize, n: usize) {
    assert!(number < n, "{what} {number} of {n}: they are counted from 0");
}

/// The entry at a row and a column. It panics where there is no such row or column.
impl<T> Index<(usize, usize)> for Matrix<T> {
    type Output = T;
    #[track_caller]
    fn index(&self, (r, c): (usize, usize)) -> &T {
        inside("row", r, self.n);
        inside("column", c, self.n);
        &self.entries[r * self.n + c]
    }
}

/// The entry at a row and a column, to be written. It panics where there is no such row or column.
impl<T> IndexMut<(usize, usize)> for Matrix<T> {
    #[track_caller]
    fn index_mut(&mut self, (r, c): (usize, usize)) -> &mut T {
        inside("row", r, self.n);
        inside("column", c, self.n);
        &mut self.entries[r * self.n + c]
    }
}

#[cfg(test)]
mod tests {
    use super::*;
    use crate::Dual64;

    fn counted(n: usize) -> Matrix<Dual64> {
        Matrix::from_fn(n, |r, c| Dual64::from_re((r * n + c) as f64))
    }

    #[test]
    fn entries_stand_row_by_row() {
        let a = counted(3);
        let real = |records: &[Dual64]| records.iter().map(|x| x.re).collect::<Vec<_>>();
        assert_eq!(real(a.entries()), (0..9).map(f64::from).collect::<Vec<_>>());
        assert_eq!(real(a.row(1)), [3.0, 4.0, 5.0]);
        assert_eq!(real(&a.column(1)), [1.0, 4.0, 7.0]);
        assert_eq!(a[(2, 1)].re, 7.0);
    }

    #[test]
    fn entries_must_fill_the_square() {
        let entries = |count: usize| vec![Dual64::ZERO; count];
        assert!(Matrix::from_entries(2, entries(4)).is_ok());
        assert_eq!(Matrix::from_entries(2, entries(3)).unwrap_err(), Refusal::WrongLength);
        assert!(Matrix::from_entries(usize::MAX, entries(1)).is_err());
        assert_eq!(Matrix::from_entries(0, entries(0)).unwrap().n(), 0);
    }

    #[test]
    fn sizes_are_checked_first() {
        for n in [33, 40, 1 << 16, 1 << 32, usize::MAX] {
            let unread = |_, _| -> Dual64 { unreachable!("no entry is asked for") };
            assert_eq!(Matrix::try_from_fn(n, unread).unwrap_err(), Refusal::TooLarge);
            assert_eq!(Matrix::<Dual64>::try_zeros(n).unwrap_err(), Refusal::TooLarge);
            // its square wraps to 0 at 2^32
            assert_eq!(Matrix::<Dual64>::from_entries(n, vec![]).unwrap_err(), Refusal::TooLarge);
        }
        assert_eq!(Matrix::<Dual64>::zeros(32).entries().len(), 1024);
    }

    #[test]
    fn rows_must_be_as_long_as_they_are_many() {
        let row = |length: usize| vec![Dual64::ONE; length];
        let made = |rows: &[Vec<Dual64>]| Matrix::try_from_rows(rows).map(|a| a.n());
        assert_eq!(made(&[row(2), row(2)]), Ok(2));
        assert_eq!(made(&[]), Ok(0));
        assert_eq!(made(&[row(1), row(3)]), Err(Refusal::WrongLength));
        assert_eq!(made(&[row(2)]), Err(Refusal::WrongLength));
        assert_eq!(made(&[row(0)]), Err(Refusal::WrongLength));
        assert_eq!(made(&vec![row(33); 33]), Err(Refusal::TooLarge));
        assert_eq!(made(&vec![row(0); 33]), Err(Refusal::TooLarge));
        let rows = [[Dual64::from_re(1.0), Dual64::from_re(2.0)]; 2];
        assert_eq!(Matrix::try_from_rows(&rows).unwrap()[(1, 1)].re, 2.0);
    }

    #[test]
    #[should_panic(expected = "refused 1: a matrix has at most 32 rows")]
    fn zeros_panics_with_the_refusal() {
        let _ = Matrix::<Dual64>::zeros(1 << 32);
    }

    #[test]
    #[should_panic(expected = "column 2 of 2")]
    fn a_column_outside_is_no_entry() {
        let _ = counted(2)[(0, 2)];
    }

    #[test]
    #[should_panic(expected = "row 9223372036854775808 of 2")]
    fn a_row_that_wraps_is_no_entry() {
        let _ = counted(2)[((usize::MAX >> 1) + 1, 0)];
    }
}
