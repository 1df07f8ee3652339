//! Matrix Market texts: matrices of whole numbers from bytes and back.
use crate::{exports, Entry, Matrix, Refusal};

/// The bytes that [`exports::market_write`] and [`exports::hyperdual_market_write`] are lent: no
/// text of theirs needs more.
pub const MARKET_BYTES: usize = 20_480;

/// The most bytes of a Matrix Market text that is read.
pub const MAX_MARKET_BYTES: usize = 65_536;

impl<T: Entry> Matrix<T> {
    /// The matrix in a Matrix Market text of whole numbers, `general` or `symmetric`; all derivative
    /// parts are zero. After the header come comment lines, if any, the size line, and one entry a
    /// line, column by column; a symmetric text has of each column the entries from the diagonal
    /// down. Each line ends with a newline, and nothing comes after the last entry's. Magnitudes go
    /// to 2^53, and -0 is +0.
    ///
    /// ```
    /// use evindrast::{Dual64, Matrix, Refusal};
    /// # fn main() -> Result<(), Refusal> {
    /// let text = b"%%MatrixMarket matrix array integer symmetric\n% of the desk\n2 2\n4\n-1\n3\n";
    /// let a = Matrix::<Dual64>::from_market(text)?;
    /// assert_eq!((a[(0, 0)].re, a[(0, 1)].re), (4.0, -1.0));
    /// assert_eq!((a[(1, 0)].re, a[(1, 1)].re), (-1.0, 3.0));
    /// assert_eq!(a[(1, 0)].eps, 0.0);
    ///
    /// let cut = &text[..text.len() - 1];
    /// assert_eq!(Matrix::<Dual64>::from_market(cut).unwrap_err(), Refusal::WrongEntries);
    /// # Ok(())
    /// # }
    /// ```
    ///
    /// # Errors
    /// [`Refusal::UnreadableMarket`] for a text above 65,536 bytes, or a header or size line that
    /// cannot be read; then [`Refusal::NotSquare`]; then [`Refusal::TooLarge`] for more than 32
    /// rows; then the first fault in the entries: [`Refusal::UnreadableMarket`] where one cannot be
    /// read or its magnitude is above 2^53, [`Refusal::WrongEntries`] where the text ends before the
    /// last entry's newline or goes on after it.
    pub fn from_market(text: &[u8]) -> Result<Self, Refusal> {
        let mut n = 0;
        Refusal::check(exports::market_size(text, &mut n), 0)?;
        let mut matrix = Self::try_zeros(n)?;
        Refusal::check(T::market_read(text, matrix.entries_mut(), &mut n), 0)?;
        Ok(matrix)
    }

    /// The `general` Matrix Market text of a matrix of whole numbers, without comments or leading
    /// zeros. [`from_market`](Self::from_market) gives the matrix back, with +0 for -0.
    ///
    /// ```
    /// use evindrast::{Dual64, Matrix, Refusal};
    /// # fn main() -> Result<(), Refusal> {
    /// let x = |re| Dual64::from_re(re);
    /// let a = Matrix::from_rows([[x(1.0), x(-2.0)], [x(30.0), x(-0.0)]]);
    /// let text = b"%%MatrixMarket matrix array integer general\n2 2\n1\n30\n-2\n0\n";
    /// assert_eq!(a.to_market()?, text);
    ///
    /// let a = Matrix::from_rows([[x(0.5)]]);
    /// assert_eq!(a.to_market().unwrap_err(), Refusal::Unwritable);
    /// # Ok(())
    /// # }
    /// ```
    ///
    /// # Errors
    /// [`Refusal::Unwritable`] where a real part is no whole number of magnitude up to 2^53, or a
    /// derivative part is not zero.
    pub fn to_market(&self) -> Result<Vec<u8>, Refusal> {
        let (mut text, mut length) = (vec![0; MARKET_BYTES], 0);
        Refusal::check(T::market_write(self.n(), self.entries(), &mut text, &mut length), 0)?;
        text.truncate(length);
        Ok(text)
    }
}
