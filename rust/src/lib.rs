//! Automatic differentiation by a library that is proved: num-dual's scalar dual numbers over f64,
//! their chain rules, and LU and Jacobi over them, under num-dual's names; and matrices from Matrix
//! Market texts and back.
//!
//! ```
//! use evindrast::{Dual64, DualNum, HyperDual64};
//!
//! // a value and its slope
//! let x = Dual64::from_re(0.5).derivative();
//! let y = x.sin() * 2.0 + x.sqrt();
//! assert_eq!(y.re, 2.0 * 0.5f64.sin() + 0.5f64.sqrt());
//!
//! // a mixed second derivative
//! let x = HyperDual64::from_re(4.0).derivative1();
//! let y = HyperDual64::from_re(3.0).derivative2();
//! assert_eq!((x * y * y).eps1eps2, 6.0);
//! ```
//!
//! A solve that carries a slope, as the fit of a reel does it:
//!
//! ```
//! use evindrast::{Dual64, Matrix, Refusal, LU};
//!
//! # fn main() -> Result<(), Refusal> {
//! let x = |re, eps| Dual64::new(re, eps);
//! let a = Matrix::from_rows([[x(2.0, 0.0), x(1.0, 0.0)], [x(1.0, 0.0), x(4.0, 0.0)]]);
//! let solution = LU::new(&a)?.solve(&[x(4.0, 2.0), x(9.0, 1.0)])?;
//! assert_eq!((solution[0].re, solution[0].eps), (1.0, 1.0));
//! assert_eq!((solution[1].re, solution[1].eps), (2.0, 0.0));
//! # Ok(())
//! # }
//! ```
//!
//! # Matrix Market texts
//! [`Matrix::from_market`] reads a matrix of whole numbers from the bytes of a file, whose first
//! line is `%%MatrixMarket matrix array integer`, then `general` or `symmetric`; the derivative
//! parts are zero. [`Matrix::to_market`] writes one back. The example `desk` goes from such a file
//! to rate and offset of a reel.
//!
//! # What is proved, and what is not
//! Every operation on records and matrices is a call of the static library, whose code is proved
//! to be a fixed sequence of IEEE 754 operations, num-dual's own. This crate holds buffers, hands
//! in std's sines, exponentials and so on, and turns numbers into [`Refusal`]s; it is tested, and
//! compared with num-dual by `compare/scale`. A call across the library's boundary cannot be
//! inlined, so a single product costs more than num-dual's; matrices do not pay it.
//!
//! # The floating-point environment
//! The promises are for results rounded to nearest, ties to even, with subnormal numbers kept and
//! exceptions not trapped: the environment in which a program starts, and the one that Rust itself
//! assumes. Code in another language may leave it, on its own thread; then other results come,
//! without a word. [`environment()`] tells.
//!
//! # Sizes
//! A [`Matrix`] has at most 32 rows ([`MAX_N`]), and its constructors check that before anything is
//! allocated. A function either gives a [`Refusal`] or, where num-dual's signature or an index
//! leaves no room for one, panics in words that stand under its heading "Panics"; none aborts, and
//! no place or size wraps.
//!
//! # Differences from num-dual
//! - The five records are over f64 alone, not nested; f64 itself is no [`DualNum`]. `Rem`,
//!   `Display`, serde and num-traits' own traits are left out: their methods stand in [`DualNum`].
//! - [`DualNum::powi`] refuses exponents outside -1,024..1,024.
//! - [`LU`] and [`jacobi_eigenvalue`] take a [`Matrix`] and say why they refuse.
//! - [`Dual3_64`] and [`HyperHyperDual64`] have `sph_j1_series` besides: `sph_j1` with its third
//!   derivative about 0, which num-dual's has not.
//! - A NaN counts as positive, and is 7ff8000000000000 where it leaves an operation on records.
//!
//! # Building
//! The build script links `libevindrast.a`, which `bin/library` of the repository proves and writes
//! for the machine at hand, or the one of the folder that `EVINDRAST_LIB_DIR` names.
#![warn(missing_docs)]

mod dual_num;
mod environment;
pub mod exports;
mod function;
mod layout;
mod linalg;
mod market;
mod matrix;
mod records;
mod refusal;
pub mod supplied;

pub use dual_num::DualNum;
pub use environment::{environment, Environment};
pub use function::{Function, Kind};
pub use linalg::{jacobi_eigenvalue, Eigen, Entry, LU};
pub use market::{MARKET_BYTES, MAX_MARKET_BYTES};
pub use matrix::{Matrix, MAX_N};
pub use records::{Dual2_64, Dual3_64, Dual64, HyperDual64, HyperHyperDual64};
pub use refusal::Refusal;
