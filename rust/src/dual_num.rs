//! What the five records have in common.
use crate::layout::{floats, floats_mut, Floats};
use crate::{supplied, Function, Kind, Refusal};
use std::fmt::Debug;
use std::iter::{Product, Sum};
use std::ops::{Add, AddAssign, Div, DivAssign, Mul, MulAssign, Neg, Sub, SubAssign};
use std::slice::from_ref;

/// The library's answer to a call with the lengths that it wants.
#[inline]
pub(crate) fn answer<T: DualNum>(function: Function, records: &[T], outside: &[f64]) -> T {
    supplied::record(function, records, 0, outside).expect("the lengths are those wanted")
}

/// As [`answer`], of a truth.
#[inline]
pub(crate) fn holds<T: DualNum>(function: Function, records: &[T]) -> bool {
    supplied::truth(function, records).expect("the lengths are those wanted")
}

/// A dual number: the five records implement it, and no other type can. The names, the arguments
/// and the results are those of num-dual's trait of this name (with `Signed`, `Zero`, `One` and
/// `Inv` of num-traits), for f64 parts.
///
/// Every operation is the library's, which is proved. What it cannot compute (sines, exponentials,
/// logarithms, powers) is std's value for f64, taken at the real part just where num-dual takes
/// it. A NaN among the results is 7ff8000000000000 (in a `sum` or `product` it may have any bits).
///
/// ```
/// use evindrast::{Dual3_64, Dual64, DualNum};
/// fn f<D: DualNum>(x: D) -> D {
///     x.powi(3) * 2.0
/// }
/// assert_eq!(f(Dual64::from_re(5.0).derivative()).eps, 150.0);
/// assert_eq!(f(Dual3_64::from_re(5.0).derivative()).v3, 12.0);
/// ```
pub trait DualNum:
    Floats
    + Debug
    + From<f64>
    + PartialOrd
    + PartialOrd<f64>
    + Neg<Output = Self>
    + Add<Output = Self>
    + Sub<Output = Self>
    + Mul<Output = Self>
    + Div<Output = Self>
    + for<'a> Add<&'a Self, Output = Self>
    + for<'a> Sub<&'a Self, Output = Self>
    + for<'a> Mul<&'a Self, Output = Self>
    + for<'a> Div<&'a Self, Output = Self>
    + Add<f64, Output = Self>
    + Sub<f64, Output = Self>
    + Mul<f64, Output = Self>
    + Div<f64, Output = Self>
    + AddAssign
    + SubAssign
    + MulAssign
    + DivAssign
    + AddAssign<f64>
    + SubAssign<f64>
    + MulAssign<f64>
    + DivAssign<f64>
    + Sum
    + Product
    + for<'a> Sum<&'a Self>
    + for<'a> Product<&'a Self>
{
    /// The kind of record.
    const KIND: Kind;

    /// How many floats it has.
    const PARTS: usize;

    /// Highest derivative that it carries.
    const NDERIV: usize;

    /// All parts 0.
    const ZERO: Self;

    /// Real part 1, all other parts 0.
    const ONE: Self;

    /// The record of a real part, all other parts 0.
    fn from_re(re: f64) -> Self;

    /// The real part.
    fn re(&self) -> f64;

    /// From its floats, in the order of its fields.
    ///
    /// ```
    /// use evindrast::{Dual64, DualNum};
    /// let x = Dual64::from_parts(&[2.0, 1.0]).unwrap();
    /// assert_eq!((x.re, x.eps, x.parts()), (2.0, 1.0, &[2.0, 1.0][..]));
    /// ```
    ///
    /// # Errors
    /// [`Refusal::WrongLength`] for another number of floats.
    fn from_parts(parts: &[f64]) -> Result<Self, Refusal> {
        if parts.len() != Self::PARTS {
            return Err(Refusal::WrongLength);
        }
        let mut record = [Self::ZERO];
        floats_mut(&mut record).copy_from_slice(parts);
        let [record] = record;
        Ok(record)
    }

    /// Its floats, in the order of its fields.
    fn parts(&self) -> &[f64] {
        floats(from_ref(self))
    }

    /// All parts 0.
    #[inline]
    fn zero() -> Self {
        Self::ZERO
    }

    /// Real part 1, all other parts 0.
    #[inline]
    fn one() -> Self {
        Self::ONE
    }

    /// Whether the real part is zero.
    #[inline]
    fn is_zero(&self) -> bool {
        holds(Function::IsZero, &[*self])
    }

    /// Whether the real part is one.
    #[inline]
    fn is_one(&self) -> bool {
        holds(Function::IsOne, &[*self])
    }

    /// Whether the real part's sign bit is set, so that -0 is negative. A NaN is not.
    #[inline]
    fn is_negative(&self) -> bool {
        holds(Function::IsNegative, &[*self])
    }

    /// Whether the real part's sign bit is clear. A NaN counts as positive.
    #[inline]
    fn is_positive(&self) -> bool {
        holds(Function::IsPositive, &[*self])
    }

    /// x where it is positive, else -x.
    #[inline]
    fn abs(&self) -> Self {
        answer(Function::Abs, &[*self], &[])
    }

    /// One, zero (for -0) or minus one.
    #[inline]
    fn signum(&self) -> Self {
        answer(Function::Signum, &[*self], &[])
    }

    /// The difference where it is positive, else zero.
    #[inline]
    fn abs_sub(&self, other: &Self) -> Self {
        answer(Function::AbsSub, &[*self, *other], &[])
    }

    /// Multiply all parts with a factor.
    #[inline]
    fn scale(self, factor: &f64) -> Self {
        answer(Function::Scale, &[self], &[*factor])
    }

    /// Reciprocal `1/x`.
    #[inline]
    fn recip(&self) -> Self {
        answer(Function::Recip, &[*self], &[])
    }

    /// Reciprocal `1/x`.
    #[inline]
    fn inv(self) -> Self {
        answer(Function::Inv, &[self], &[])
    }

    /// Power with integer exponent.
    ///
    /// ```
    /// use evindrast::{Dual64, DualNum};
    /// // P8
    /// let square = Dual64::new(5.0, 1.0).powi(2);
    /// assert_eq!((square.re, square.eps), (25.0, 10.0));
    /// ```
    ///
    /// # Panics
    /// Where the exponent is outside -1,024..1,024 (refusal 5), for which num-dual's integer
    /// factors may overflow. [`try_powi`](DualNum::try_powi) gives the refusal instead.
    #[inline]
    fn powi(&self, n: i32) -> Self {
        match self.try_powi(n) {
            Ok(power) => power,
            Err(refusal) => panic!("{refusal}"),
        }
    }

    /// [`powi`](DualNum::powi), or its refusal.
    ///
    /// ```
    /// use evindrast::{Dual64, DualNum, Refusal};
    /// // P9
    /// let x = Dual64::new(1.0, 1.0);
    /// assert_eq!(x.try_powi(1024).unwrap().eps, 1024.0);
    /// assert_eq!(x.try_powi(1025).unwrap_err(), Refusal::ExponentTooLarge);
    /// assert_eq!(x.try_powi(-1025).unwrap_err().number(), 5);
    /// ```
    ///
    /// # Errors
    /// [`Refusal::ExponentTooLarge`] for an exponent outside -1,024..1,024.
    #[inline]
    fn try_powi(&self, n: i32) -> Result<Self, Refusal> {
        // where this wraps, the exponent is refused and the power not read
        let power = self.re().powi(n.wrapping_sub(3));
        supplied::record(Function::Powi, &[*self], n, &[power])
    }

    /// Power with real exponent.
    #[inline]
    fn powf(&self, n: f64) -> Self {
        let power = self.re().powf(((n - 1.0) - 1.0) - 1.0);
        answer(Function::Powf, &[*self], &[n, power])
    }

    /// Power with dual exponent, `exp(ln(x)·y)`.
    #[inline]
    fn powd(&self, exp: Self) -> Self {
        let ln = self.re().ln();
        answer(Function::Powd, &[*self, exp], &[ln, (ln * exp.re()).exp()])
    }

    /// Square root, the library's own.
    ///
    /// ```
    /// use evindrast::{Dual64, DualNum};
    /// // P11
    /// let root = Dual64::new(0.0, 1.0).sqrt();
    /// assert!(root.re == 0.0 && root.eps.is_nan());
    /// ```
    #[inline]
    fn sqrt(&self) -> Self {
        answer(Function::Sqrt, &[*self], &[])
    }

    /// Cubic root.
    #[inline]
    fn cbrt(&self) -> Self {
        answer(Function::Cbrt, &[*self], &[self.re().cbrt()])
    }

    /// Exponential.
    #[inline]
    fn exp(&self) -> Self {
        answer(Function::Exp, &[*self], &[self.re().exp()])
    }

    /// Exponential with base 2.
    #[inline]
    fn exp2(&self) -> Self {
        answer(Function::Exp2, &[*self], &[self.re().exp2()])
    }

    /// Exponential minus 1.
    #[inline]
    fn exp_m1(&self) -> Self {
        answer(Function::ExpM1, &[*self], &[self.re().exp_m1(), self.re().exp()])
    }

    /// Natural logarithm.
    #[inline]
    fn ln(&self) -> Self {
        answer(Function::Ln, &[*self], &[self.re().ln()])
    }

    /// Logarithm with arbitrary base.
    #[inline]
    fn log(&self, base: f64) -> Self {
        answer(Function::Log, &[*self], &[self.re().log(base), base.ln()])
    }

    /// Logarithm with base 2.
    #[inline]
    fn log2(&self) -> Self {
        answer(Function::Log2, &[*self], &[self.re().log2()])
    }

    /// Logarithm with base 10.
    #[inline]
    fn log10(&self) -> Self {
        answer(Function::Log10, &[*self], &[self.re().log10()])
    }

    /// Logarithm of `1 + x`.
    #[inline]
    fn ln_1p(&self) -> Self {
        answer(Function::Ln1p, &[*self], &[self.re().ln_1p()])
    }

    /// Sine.
    #[inline]
    fn sin(&self) -> Self {
        answer(Function::Sin, &[*self], &sine_cosine(self))
    }

    /// Cosine.
    #[inline]
    fn cos(&self) -> Self {
        answer(Function::Cos, &[*self], &sine_cosine(self))
    }

    /// Sine and cosine.
    #[inline]
    fn sin_cos(&self) -> (Self, Self) {
        supplied::pair(Function::SinCos, &[*self], &sine_cosine(self))
            .expect("the lengths are those wanted")
    }

    /// Tangent: the sine's record divided by the cosine's.
    #[inline]
    fn tan(&self) -> Self {
        answer(Function::Tan, &[*self], &sine_cosine(self))
    }

    /// Arcsine.
    #[inline]
    fn asin(&self) -> Self {
        answer(Function::Asin, &[*self], &[self.re().asin()])
    }

    /// Arccosine.
    #[inline]
    fn acos(&self) -> Self {
        answer(Function::Acos, &[*self], &[self.re().acos()])
    }

    /// Arctangent.
    #[inline]
    fn atan(&self) -> Self {
        answer(Function::Atan, &[*self], &[self.re().atan()])
    }

    /// Arctangent of self divided by other, in four quadrants.
    #[inline]
    fn atan2(&self, other: Self) -> Self {
        let quotient = self.re() * (1.0 / other.re());
        let outside = [quotient.atan(), self.re().atan2(other.re())];
        answer(Function::Atan2, &[*self, other], &outside)
    }

    /// Hyperbolic sine.
    #[inline]
    fn sinh(&self) -> Self {
        answer(Function::Sinh, &[*self], &hyperbolic(self))
    }

    /// Hyperbolic cosine.
    #[inline]
    fn cosh(&self) -> Self {
        answer(Function::Cosh, &[*self], &hyperbolic(self))
    }

    /// Hyperbolic tangent: the sine's record divided by the cosine's.
    #[inline]
    fn tanh(&self) -> Self {
        answer(Function::Tanh, &[*self], &hyperbolic(self))
    }

    /// Area hyperbolic sine.
    #[inline]
    fn asinh(&self) -> Self {
        answer(Function::Asinh, &[*self], &[self.re().asinh()])
    }

    /// Area hyperbolic cosine.
    #[inline]
    fn acosh(&self) -> Self {
        answer(Function::Acosh, &[*self], &[self.re().acosh()])
    }

    /// Area hyperbolic tangent.
    #[inline]
    fn atanh(&self) -> Self {
        answer(Function::Atanh, &[*self], &[self.re().atanh()])
    }

    /// 0th order spherical Bessel function of the first kind.
    #[inline]
    fn sph_j0(&self) -> Self {
        answer(Function::SphJ0, &[*self], &sine_cosine(self))
    }

    /// 1st order spherical Bessel function of the first kind: num-dual's, float for float. Where
    /// |re| is below 2^-52 it is `x / 3`, so that a third derivative is 0 there and not -1/5;
    /// [`Dual3_64::sph_j1_series`](crate::Dual3_64::sph_j1_series) has it.
    #[inline]
    fn sph_j1(&self) -> Self {
        answer(Function::SphJ1, &[*self], &sine_cosine(self))
    }

    /// 2nd order spherical Bessel function of the first kind.
    #[inline]
    fn sph_j2(&self) -> Self {
        answer(Function::SphJ2, &[*self], &sine_cosine(self))
    }

    /// A product and a sum, each rounded.
    #[inline]
    fn mul_add(&self, a: Self, b: Self) -> Self {
        answer(Function::MulAdd, &[*self, a, b], &[])
    }
}

/// What the circular functions and the Bessel functions take from outside.
pub(crate) fn sine_cosine<T: DualNum>(x: &T) -> [f64; 2] {
    let (sine, cosine) = x.re().sin_cos();
    [sine, cosine]
}

fn hyperbolic<T: DualNum>(x: &T) -> [f64; 2] {
    [x.re().sinh(), x.re().cosh()]
}
