//! The port's functions for matrices, by the kind of record.
use compare::record::{DualKind, HyperDualKind, Kind};
use evindrast::exports;

/// A kind whose matrices the port factors: its functions over lent floats, as `exports` has them.
pub trait Port: Kind {
    fn lu(
        n: usize,
        a: &[f64],
        f: &mut [f64],
        order: &mut [usize],
        swaps_or_column: &mut usize,
    ) -> u32;
    fn solve(n: usize, f: &[f64], order: &[usize], b: &[f64], x: &mut [f64]) -> u32;
    fn determinant(n: usize, f: &[f64], order: &[usize], swaps: usize, det: &mut [f64]) -> u32;
    fn inverse(n: usize, f: &[f64], order: &[usize], out: &mut [f64]) -> u32;
}

macro_rules! port {
    ($kind:ident, $lu:ident, $solve:ident, $determinant:ident, $inverse:ident) => {
        impl Port for $kind {
            #[inline]
            fn lu(n: usize, a: &[f64], f: &mut [f64], order: &mut [usize], at: &mut usize) -> u32 {
                exports::$lu(n, a, f, order, at)
            }

            #[inline]
            fn solve(n: usize, f: &[f64], order: &[usize], b: &[f64], x: &mut [f64]) -> u32 {
                exports::$solve(n, f, order, b, x)
            }

            #[inline]
            fn determinant(n: usize, f: &[f64], order: &[usize], s: usize, det: &mut [f64]) -> u32 {
                exports::$determinant(n, f, order, s, det.try_into().expect("one record"))
            }

            #[inline]
            fn inverse(n: usize, f: &[f64], order: &[usize], out: &mut [f64]) -> u32 {
                exports::$inverse(n, f, order, out)
            }
        }
    };
}

port!(DualKind, lu, solve, determinant, inverse);
port!(HyperDualKind, hyperdual_lu, hyperdual_solve, hyperdual_determinant, hyperdual_inverse);
