//! Why a call was refused.
use std::fmt;

/// The refusals of the library, by the project's numbers. A refused call leaves every lent buffer as
/// it was, but for 6: LU then leaves the column, and zeros in both outputs ([`exports::lu`]).
///
/// [`exports::lu`]: crate::exports::lu
#[derive(Copy, Clone, Debug, PartialEq, Eq)]
#[non_exhaustive]
pub enum Refusal {
    /// 1: a matrix of more than 32 rows.
    TooLarge,
    /// 2: a length is not the one wanted, or the record has no such function, or there is no kind or
    /// function of this number ([`exports`](crate::exports)).
    WrongLength,
    /// 3: Jacobi of an empty matrix.
    Empty,
    /// 4: a sweep limit above 1,000.
    LimitTooLarge,
    /// 5: a `powi` exponent outside -1,024..1,024.
    ExponentTooLarge,
    /// 6: no pivot of this column exceeds zero.
    Singular {
        /// The column, from 0.
        column: usize,
    },
    /// 7: an order of rows that is not a permutation of 0..n-1.
    NotAnOrder,
    /// 8: a swap count above 32, or of the other parity than the order.
    WrongSwaps,
    /// 10: a Matrix Market text above 65,536 bytes, or whose header, size line or a number cannot be
    /// read, or with a magnitude above 2^53.
    UnreadableMarket,
    /// 11: a Matrix Market text whose two sizes differ.
    NotSquare,
    /// 12: a Matrix Market text with too few entries, or with a byte after the last.
    WrongEntries,
    /// 20: a matrix with a real part that is no whole number of magnitude up to 2^53, or with a
    /// derivative part that is not zero: no Matrix Market text of whole numbers holds it.
    Unwritable,
}

impl Refusal {
    /// The refusal's number.
    pub fn number(self) -> u32 {
        match self {
            Refusal::TooLarge => 1,
            Refusal::WrongLength => 2,
            Refusal::Empty => 3,
            Refusal::LimitTooLarge => 4,
            Refusal::ExponentTooLarge => 5,
            Refusal::Singular { .. } => 6,
            Refusal::NotAnOrder => 7,
            Refusal::WrongSwaps => 8,
            Refusal::UnreadableMarket => 10,
            Refusal::NotSquare => 11,
            Refusal::WrongEntries => 12,
            Refusal::Unwritable => 20,
        }
    }

    /// Done, or the refusal of this number; the column is read at 6 alone.
    pub(crate) fn check(number: u32, column: usize) -> Result<(), Refusal> {
        match number {
            0 => Ok(()),
            1 => Err(Refusal::TooLarge),
            2 => Err(Refusal::WrongLength),
            3 => Err(Refusal::Empty),
            4 => Err(Refusal::LimitTooLarge),
            5 => Err(Refusal::ExponentTooLarge),
            6 => Err(Refusal::Singular { column }),
            7 => Err(Refusal::NotAnOrder),
            8 => Err(Refusal::WrongSwaps),
            10 => Err(Refusal::UnreadableMarket),
            11 => Err(Refusal::NotSquare),
            12 => Err(Refusal::WrongEntries),
            20 => Err(Refusal::Unwritable),
            _ => unreachable!("the library promises no answer {number}"),
        }
    }
}

impl fmt::Display for Refusal {
    fn fmt(&self, f: &mut fmt::Formatter) -> fmt::Result {
        let reason = match self {
            Refusal::TooLarge => "a matrix has at most 32 rows",
            Refusal::WrongLength => {
                "a length is not the one wanted, or the record has no such function"
            }
            Refusal::Empty => "an empty matrix has no eigenvalues",
            Refusal::LimitTooLarge => "at most 1,000 sweeps may be asked for",
            Refusal::ExponentTooLarge => "powi's exponent is outside -1,024..1,024",
            Refusal::Singular { column } => {
                return write!(f, "refused 6: the matrix is singular at column {column}")
            }
            Refusal::NotAnOrder => "the order is not a permutation of the rows",
            Refusal::WrongSwaps => "the swap count does not fit the order",
            Refusal::UnreadableMarket => {
                "the file is above 65,536 bytes, or its first line is not \"%%MatrixMarket matrix \
                 array integer\" with \"general\" or \"symmetric\", or its size line is not two \
                 numbers with one space between, or an entry is not a whole number up to 2^53, \
                 alone on its line"
            }
            Refusal::NotSquare => "the matrix in the file has not as many columns as rows",
            Refusal::WrongEntries => {
                "the file ends before its last entry, or something stands after that"
            }
            Refusal::Unwritable => {
                "an entry is not a whole number up to 2^53, or it has a slope: no file holds it"
            }
        };
        write!(f, "refused {}: {reason}", self.number())
    }
}

impl std::error::Error for Refusal {}

#[cfg(test)]
mod tests {
    use super::*;

    #[test]
    fn numbers_go_both_ways() {
        assert_eq!(Refusal::check(0, 5), Ok(()));
        for number in (1..=8).chain(10..=12).chain([20]) {
            assert_eq!(Refusal::check(number, 5).map_err(Refusal::number), Err(number));
        }
        assert_eq!(Refusal::check(6, 5), Err(Refusal::Singular { column: 5 }));
    }

    #[test]
    fn a_refusal_names_its_number_and_column() {
        let text = Refusal::Singular { column: 3 }.to_string();
        assert_eq!(text, "refused 6: the matrix is singular at column 3");
        assert!(Refusal::ExponentTooLarge.to_string().starts_with("refused 5: "));
        let text = Refusal::NotSquare.to_string();
        assert_eq!(text, "refused 11: the matrix in the file has not as many columns as rows");
    }
}
