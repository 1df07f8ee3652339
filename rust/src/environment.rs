//! The floating-point environment that the promises are for.
use crate::{exports, Kind};
use std::fmt;

/// How the floating-point environment differs from the one that the promises are for.
#[derive(Copy, Clone, Debug, PartialEq, Eq)]
#[non_exhaustive]
pub struct Environment {
    /// Results are not rounded to nearest, ties to even.
    pub rounding: bool,
    /// Subnormal results or operands are taken as zero.
    pub subnormals: bool,
}

/// Whether the calling thread has the floating-point environment that the promises are for: results
/// rounded to nearest, ties to even, and subnormal numbers kept. A program starts in it, and Rust
/// itself assumes it; a part in another language may have left it (`fesetround`, flush-to-zero, a
/// main program linked with `-ffast-math`), and then other results come, without a word. That no
/// exception is trapped is assumed too, and not seen here.
///
/// It looks at what the library's own additions and subtractions give, bit for bit, on each call;
/// like all of this crate it is no part of what is proved.
///
/// ```
/// evindrast::environment().expect("no other part of this program has changed it");
/// ```
///
/// # Errors
/// What is otherwise.
pub fn environment() -> Result<(), Environment> {
    // 1 + 2^-53 and (1 + 2^-52) + 2^-53 lie halfway between two floats: to nearest even the first
    // goes down and the second up
    let halfway = [ONE, ONE + 1, 0x3ca0_0000_0000_0000, 0x3ca0_0000_0000_0000];
    let rounding = given(exports::add, halfway) != [ONE, ONE + 2];
    // 1.5·2^-1022 - 2^-1022 has a subnormal result, 2^-1022 - (-2^-1074) a subnormal operand
    let smallest = [NORMAL + NORMAL / 2, NORMAL, NORMAL, 1 << 63 | 1];
    let subnormals = given(exports::sub, smallest) != [NORMAL / 2, NORMAL + 1];
    if rounding || subnormals {
        return Err(Environment { rounding, subnormals });
    }
    Ok(())
}

/// The bits of 1.
const ONE: u64 = 0x3ff0_0000_0000_0000;

/// The bits of 2^-1022, the least normal float; those of a subnormal one are its whole multiple of
/// 2^-1074.
const NORMAL: u64 = 0x0010_0000_0000_0000;

/// What an operator makes of two `Dual64`, part by part, all by their bits.
fn given(operator: fn(u32, &[f64], &mut [f64]) -> u32, words: [u64; 4]) -> [u64; 2] {
    let mut out = [0.0; 2];
    let number = operator(Kind::Dual as u32, &words.map(f64::from_bits), &mut out);
    assert_eq!(number, 0, "the lengths are those wanted");
    out.map(f64::to_bits)
}

impl fmt::Display for Environment {
    fn fmt(&self, f: &mut fmt::Formatter) -> fmt::Result {
        let what = match (self.rounding, self.subnormals) {
            (true, true) => {
                "results are not rounded to nearest, and subnormal numbers count as zero"
            }
            (true, false) => "results are not rounded to nearest",
            (false, true) => "subnormal numbers count as zero",
            (false, false) => "nothing is otherwise",
        };
        write!(f, "not the floating-point environment that the promises are for: {what}")
    }
}

impl std::error::Error for Environment {}
