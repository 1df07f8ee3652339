//! Any function with outside values of the caller's own, for hosts that have their own sines and
//! exponentials. [`DualNum`]'s methods are these with std's values. The result is right for the
//! values handed in; nothing checks them.
//!
//! ```
//! use evindrast::{supplied, Dual3_64, Function};
//! // P8: the power re^(3-3) is 1
//! let x = Dual3_64::new(5.0, 1.0, 0.0, 0.0);
//! let cube = supplied::record(Function::Powi, &[x], 3, &[1.0]).unwrap();
//! assert_eq!((cube.re, cube.v1, cube.v2, cube.v3), (125.0, 75.0, 30.0, 6.0));
//! ```
use crate::layout::{floats, floats_mut};
use crate::{exports, DualNum, Function, Refusal};

/// The record that a function gives; its records and floats are [`Function`]'s, in that order.
/// `exponent` is powi's, else not read.
///
/// # Errors
/// [`Refusal::WrongLength`] for another number of records or floats, or a function that the record
/// has not or that gives no single record; [`Refusal::ExponentTooLarge`].
#[inline]
pub fn record<T: DualNum>(
    function: Function,
    records: &[T],
    exponent: i32,
    outside: &[f64],
) -> Result<T, Refusal> {
    let mut out = [T::ZERO];
    call(function, records, exponent, outside, floats_mut(&mut out))?;
    let [record] = out;
    Ok(record)
}

/// The two records of [`Function::SinCos`].
///
/// # Errors
/// As for [`record`].
#[inline]
pub fn pair<T: DualNum>(
    function: Function,
    records: &[T],
    outside: &[f64],
) -> Result<(T, T), Refusal> {
    let mut out = [T::ZERO; 2];
    call(function, records, 0, outside, floats_mut(&mut out))?;
    let [first, second] = out;
    Ok((first, second))
}

/// What a truth says of these records.
///
/// # Errors
/// As for [`record`].
#[inline]
pub fn truth<T: DualNum>(function: Function, records: &[T]) -> Result<bool, Refusal> {
    let mut out = [0.0];
    call(function, records, 0, &[], &mut out)?;
    Ok(out == [1.0])
}

#[inline]
fn call<T: DualNum>(
    function: Function,
    records: &[T],
    exponent: i32,
    outside: &[f64],
    out: &mut [f64],
) -> Result<(), Refusal> {
    let (kind, function) = (T::KIND as u32, function as u32);
    Refusal::check(exports::record(kind, function, exponent, floats(records), outside, out), 0)
}

#[cfg(test)]
mod tests {
    use super::*;
    use crate::{Dual64, HyperDual64};

    #[test]
    fn other_lengths_are_refused() {
        let x = Dual64::new(2.0, 1.0);
        let refused = |result: Result<Dual64, Refusal>| result.err().map(Refusal::number);
        assert_eq!(refused(record(Function::Mul, &[x], 0, &[])), Some(2));
        assert_eq!(refused(record(Function::Mul, &[x; 3], 0, &[])), Some(2));
        assert_eq!(refused(record(Function::Mul, &[x; 2], 0, &[1.0])), Some(2));
        assert_eq!(refused(record(Function::Sin, &[x], 0, &[1.0])), Some(2));
        assert_eq!(refused(record(Function::SinCos, &[x], 0, &[0.0, 1.0])), Some(2));
        assert_eq!(refused(record(Function::Derivative1, &[x], 0, &[])), Some(2));
        assert_eq!(truth(Function::Mul, &[x; 2]), Err(Refusal::WrongLength));
        assert_eq!(pair(Function::Sin, &[x], &[0.0, 1.0]).err(), Some(Refusal::WrongLength));
        assert!(record(Function::Derivative, &[HyperDual64::ONE], 0, &[]).is_err());
    }

    #[test]
    fn constructors_are_the_librarys() {
        let x = Dual64::new(2.0, 3.0);
        let words = |x: Dual64| (x.re.to_bits(), x.eps.to_bits());
        let given = |function, records: &[Dual64], outside: &[f64]| {
            words(record(function, records, 0, outside).unwrap())
        };
        assert_eq!(given(Function::Zero, &[], &[]), words(Dual64::ZERO));
        assert_eq!(given(Function::One, &[], &[]), words(Dual64::ONE));
        assert_eq!(given(Function::FromRe, &[], &[-0.5]), words(Dual64::from_re(-0.5)));
        assert_eq!(given(Function::Derivative, &[x], &[]), words(x.derivative()));
    }

    #[test]
    fn values_of_ones_own_are_taken() {
        let x = Dual64::new(2.0, 3.0);
        let sine = record(Function::Sin, &[x], 0, &[0.25, 0.5]).unwrap();
        assert_eq!((sine.re, sine.eps), (0.25, 1.5));
        let (sine, cosine) = pair(Function::SinCos, &[x], &[0.25, 0.5]).unwrap();
        assert_eq!((sine.re, sine.eps, cosine.re, cosine.eps), (0.25, 1.5, 0.5, -0.75));
    }
}
