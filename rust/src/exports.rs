//! The library's functions over lent slices, as `include/evindrast.h` has them: for callers that
//! keep their own buffers. The answer is 0 or a refusal's number ([`Refusal`](crate::Refusal)); a
//! call that is refused writes nothing, but for the 6 of [`lu`] and [`hyperdual_lu`]. A matrix is
//! n·n records row by row, a record its floats with the real part first; lengths count floats,
//! those of a text bytes. No size, length or number is too much: each call answers.

extern "C" {
    fn evindrast_record(
        kind: u32,
        function: u32,
        exponent: i32,
        records: *const f64,
        records_len: usize,
        floats: *const f64,
        floats_len: usize,
        out: *mut f64,
        out_len: usize,
    ) -> u32;
    fn evindrast_sum(
        kind: u32,
        run: *const f64,
        run_len: usize,
        out: *mut f64,
        out_len: usize,
    ) -> u32;
    fn evindrast_product(
        kind: u32,
        run: *const f64,
        run_len: usize,
        out: *mut f64,
        out_len: usize,
    ) -> u32;
    fn evindrast_sqrt(x: f64) -> f64;
    fn evindrast_sqrt_word(w: u64) -> u64;
    fn evindrast_jacobi_eigenvalue(
        n: usize,
        a: *const f64,
        a_len: usize,
        limit: usize,
        values: *mut f64,
        values_len: usize,
        vectors: *mut f64,
        vectors_len: usize,
        sweeps: *mut usize,
    ) -> u32;
    fn evindrast_market_size(text: *const u8, text_len: usize, n: *mut usize) -> u32;
}

// Every call below is sound for any arguments: the library promises an answer for every input and
// every lent length, and the borrows keep a written buffer apart from the others.

/// One function of one kind of record, by their numbers ([`Kind`](crate::Kind),
/// [`Function`](crate::Function)). `exponent` is powi's, else not read. `out` takes one record, two
/// for sin_cos, one float for a truth. Answers: 0, 2, 5.
#[inline]
pub fn record(
    kind: u32,
    function: u32,
    exponent: i32,
    records: &[f64],
    floats: &[f64],
    out: &mut [f64],
) -> u32 {
    unsafe {
        evindrast_record(
            kind,
            function,
            exponent,
            records.as_ptr(),
            records.len(),
            floats.as_ptr(),
            floats.len(),
            out.as_mut_ptr(),
            out.len(),
        )
    }
}

macro_rules! operators {
    ($($name:ident $library:ident $about:literal;)*) => {
        extern "C" {
            $(fn $library(
                kind: u32,
                records: *const f64,
                records_len: usize,
                out: *mut f64,
                out_len: usize,
            ) -> u32;)*
        }

        $(
            #[doc = $about]
            /// Takes two records, gives one. Answers: 0, 2.
            #[inline]
            pub fn $name(kind: u32, records: &[f64], out: &mut [f64]) -> u32 {
                let (records, records_len) = (records.as_ptr(), records.len());
                unsafe { $library(kind, records, records_len, out.as_mut_ptr(), out.len()) }
            }
        )*
    };
}

operators! {
    add evindrast_add "[`record`] for [`Function::Add`](crate::Function::Add), sooner.";
    sub evindrast_sub "[`record`] for [`Function::Sub`](crate::Function::Sub), sooner.";
    mul evindrast_mul "[`record`] for [`Function::Mul`](crate::Function::Mul), sooner.";
    div evindrast_div "[`record`] for [`Function::Div`](crate::Function::Div), sooner.";
}

/// The sum of a run of records, from zero, left to right. Answers: 0, 2.
pub fn sum(kind: u32, run: &[f64], out: &mut [f64]) -> u32 {
    unsafe { evindrast_sum(kind, run.as_ptr(), run.len(), out.as_mut_ptr(), out.len()) }
}

/// The product of a run of records, from one, left to right. Answers: 0, 2.
pub fn product(kind: u32, run: &[f64], out: &mut [f64]) -> u32 {
    unsafe { evindrast_product(kind, run.as_ptr(), run.len(), out.as_mut_ptr(), out.len()) }
}

/// The square root of IEEE 754.
///
/// It is found one bit at a time (docs/ROOT.md), which takes some ten to thirty times as long as `f64::sqrt`; both give
/// the same float.
///
/// ```
/// use evindrast::exports::sqrt;
/// // P10
/// assert_eq!(sqrt(f64::from_bits(1)), 2f64.powi(-537));
/// assert_eq!(sqrt(-0.0).to_bits(), (-0.0f64).to_bits());
/// ```
#[inline]
pub fn sqrt(x: f64) -> f64 {
    unsafe { evindrast_sqrt(x) }
}

/// The square root by bits; a NaN leaves as 7ff8000000000000.
#[inline]
pub fn sqrt_word(w: u64) -> u64 {
    unsafe { evindrast_sqrt_word(w) }
}

macro_rules! matrices {
    ($record:literal, $floats:literal, [$($part:ident),*],
        $lu:ident $library_lu:ident, $solve:ident $library_solve:ident,
        $determinant:ident $library_determinant:ident, $inverse:ident $library_inverse:ident) => {
        extern "C" {
            fn $library_lu(
                n: usize,
                a: *const f64,
                a_len: usize,
                factors: *mut f64,
                factors_len: usize,
                order: *mut usize,
                order_len: usize,
                swaps_or_column: *mut usize,
            ) -> u32;
            fn $library_solve(
                n: usize,
                factors: *const f64,
                factors_len: usize,
                order: *const usize,
                order_len: usize,
                b: *const f64,
                b_len: usize,
                x: *mut f64,
                x_len: usize,
            ) -> u32;
            fn $library_determinant(
                n: usize,
                factors: *const f64,
                factors_len: usize,
                order: *const usize,
                order_len: usize,
                swaps: usize,
                $($part: *mut f64),*
            ) -> u32;
            fn $library_inverse(
                n: usize,
                factors: *const f64,
                factors_len: usize,
                order: *const usize,
                order_len: usize,
                out: *mut f64,
                out_len: usize,
            ) -> u32;
        }

        #[doc = concat!("LU of a matrix of [`", $record, "`](crate::", $record, "), ")]
        #[doc = concat!($floats, "n² floats.")]
        /// `swaps_or_column` becomes the swap count at 0; at 6 it is the column, and `factors` and
        /// `order` are zero. Answers: 0, 1, 2, 6.
        pub fn $lu(
            n: usize,
            a: &[f64],
            factors: &mut [f64],
            order: &mut [usize],
            swaps_or_column: &mut usize,
        ) -> u32 {
            unsafe {
                $library_lu(
                    n,
                    a.as_ptr(),
                    a.len(),
                    factors.as_mut_ptr(),
                    factors.len(),
                    order.as_mut_ptr(),
                    order.len(),
                    swaps_or_column,
                )
            }
        }

        #[doc = concat!("x with a·x = b, ", $floats, "n floats each, from a's factors and order.")]
        /// Answers: 0, 1, 2, 7.
        pub fn $solve(
            n: usize,
            factors: &[f64],
            order: &[usize],
            b: &[f64],
            x: &mut [f64],
        ) -> u32 {
            unsafe {
                $library_solve(
                    n,
                    factors.as_ptr(),
                    factors.len(),
                    order.as_ptr(),
                    order.len(),
                    b.as_ptr(),
                    b.len(),
                    x.as_mut_ptr(),
                    x.len(),
                )
            }
        }

        /// The determinant's parts, from factors, order and swap count. Answers: 0, 1, 2, 7, 8.
        pub fn $determinant(
            n: usize,
            factors: &[f64],
            order: &[usize],
            swaps: usize,
            det: &mut [f64; $floats],
        ) -> u32 {
            let [$($part),*] = det;
            unsafe {
                $library_determinant(
                    n,
                    factors.as_ptr(),
                    factors.len(),
                    order.as_ptr(),
                    order.len(),
                    swaps,
                    $($part),*
                )
            }
        }

        #[doc = concat!("The inverse, ", $floats, "n² floats, from factors and order.")]
        /// Answers: 0, 1, 2, 7.
        pub fn $inverse(n: usize, factors: &[f64], order: &[usize], out: &mut [f64]) -> u32 {
            unsafe {
                $library_inverse(
                    n,
                    factors.as_ptr(),
                    factors.len(),
                    order.as_ptr(),
                    order.len(),
                    out.as_mut_ptr(),
                    out.len(),
                )
            }
        }
    };
}

matrices! {
    "Dual64", 2, [re, eps],
    lu evindrast_lu, solve evindrast_solve, determinant evindrast_determinant,
    inverse evindrast_inverse
}

matrices! {
    "HyperDual64", 4, [re, eps1, eps2, eps1eps2],
    hyperdual_lu evindrast_hyperdual_lu, hyperdual_solve evindrast_hyperdual_solve,
    hyperdual_determinant evindrast_hyperdual_determinant,
    hyperdual_inverse evindrast_hyperdual_inverse
}

/// Eigenvalues (2n floats) and eigenvectors (2n², a column each) in at most `limit` sweeps; their
/// number is left in `sweeps`. Answers: 0, 1, 2, 3, 4.
pub fn jacobi_eigenvalue(
    n: usize,
    a: &[f64],
    limit: usize,
    values: &mut [f64],
    vectors: &mut [f64],
    sweeps: &mut usize,
) -> u32 {
    unsafe {
        evindrast_jacobi_eigenvalue(
            n,
            a.as_ptr(),
            a.len(),
            limit,
            values.as_mut_ptr(),
            values.len(),
            vectors.as_mut_ptr(),
            vectors.len(),
            sweeps,
        )
    }
}

/// The size of the matrix in a Matrix Market text, left in `n`; what stands after the size line is
/// not read. Answers: 0, 10, 11, 1.
pub fn market_size(text: &[u8], n: &mut usize) -> u32 {
    unsafe { evindrast_market_size(text.as_ptr(), text.len(), n) }
}

macro_rules! markets {
    ($record:literal, $floats:literal, $read:ident $library_read:ident,
        $write:ident $library_write:ident) => {
        extern "C" {
            fn $library_read(
                text: *const u8,
                text_len: usize,
                out: *mut f64,
                out_len: usize,
                n: *mut usize,
            ) -> u32;
            fn $library_write(
                n: usize,
                a: *const f64,
                a_len: usize,
                text: *mut u8,
                text_len: usize,
                length: *mut usize,
            ) -> u32;
        }

        #[doc = concat!("The matrix of [`", $record, "`](crate::", $record, ") in a Matrix Market")]
        #[doc = concat!("text, ", $floats, "n² floats.")]
        /// `out` and `n`, its size, are written at 0; [`market_size`] tells n beforehand. Answers:
        /// 0, 10, 11, 1, 2, then 10 or 12 by the first fault in the entries.
        pub fn $read(text: &[u8], out: &mut [f64], n: &mut usize) -> u32 {
            let (text, text_len) = (text.as_ptr(), text.len());
            unsafe { $library_read(text, text_len, out.as_mut_ptr(), out.len(), n) }
        }

        #[doc = concat!("Matrix Market's text of a matrix of [`", $record, "`](crate::", $record, "), ")]
        #[doc = concat!($floats, "n² floats.")]
        /// `text`, [`MARKET_BYTES`](crate::MARKET_BYTES) long, and `length` are written at 0; what
        /// the text does not take is zero. Answers: 0, 1, 2, 20.
        pub fn $write(n: usize, a: &[f64], text: &mut [u8], length: &mut usize) -> u32 {
            let (a, a_len) = (a.as_ptr(), a.len());
            unsafe { $library_write(n, a, a_len, text.as_mut_ptr(), text.len(), length) }
        }
    };
}

markets! {
    "Dual64", 2, market_read evindrast_market_read, market_write evindrast_market_write
}

markets! {
    "HyperDual64", 4, hyperdual_market_read evindrast_hyperdual_market_read,
    hyperdual_market_write evindrast_hyperdual_market_write
}
