//! The five records: their parts, constructors and operators, written once.
use crate::dual_num::{answer, holds, sine_cosine};
use crate::layout::{floats, floats_mut, Floats};
use crate::{exports, DualNum, Function, Kind};
use std::cmp::Ordering;
use std::iter::{Product, Sum};
use std::ops::{Add, AddAssign, Div, DivAssign, Mul, MulAssign, Neg, Sub, SubAssign};

/// The one record that a function of the library makes of these.
#[inline]
fn joined<T: DualNum>(join: impl Fn(u32, &[f64], &mut [f64]) -> u32, records: &[T]) -> T {
    let mut out = [T::ZERO];
    let number = join(T::KIND as u32, floats(records), floats_mut(&mut out));
    assert_eq!(number, 0, "the lengths are those wanted");
    let [record] = out;
    record
}

macro_rules! record {
    (
        $(#[$about:meta])*
        $record:ident: $kind:ident, $nderiv:literal, [$($part:ident $part_about:literal),*],
        [$($derivative:ident $sets:ident),*]
    ) => {
        $(#[$about])*
        #[derive(Copy, Clone, Debug)]
        #[repr(C)]
        pub struct $record {
            $(#[doc = $part_about] pub $part: f64),*
        }

        impl $record {
            /// From the fields.
            #[allow(clippy::too_many_arguments)]
            #[inline]
            pub const fn new($($part: f64),*) -> Self {
                Self { $($part),* }
            }

            /// From the real part; the others are 0.
            #[inline]
            pub const fn from_re(re: f64) -> Self {
                Self { re, ..Self { $($part: 0.0),* } }
            }

            $(
                #[doc = concat!("Sets `", stringify!($sets), "` to 1.")]
                #[inline]
                pub const fn $derivative(mut self) -> Self {
                    self.$sets = 1.0;
                    self
                }
            )*
        }

        // SAFETY: a struct of C whose fields are all f64 is those f64, one after the other.
        unsafe impl Floats for $record {}

        impl DualNum for $record {
            const KIND: Kind = Kind::$kind;
            const PARTS: usize = [$(stringify!($part)),*].len();
            const NDERIV: usize = $nderiv;
            const ZERO: Self = Self::from_re(0.0);
            const ONE: Self = Self::from_re(1.0);

            #[inline]
            fn from_re(re: f64) -> Self {
                Self::from_re(re)
            }

            #[inline]
            fn re(&self) -> f64 {
                self.re
            }
        }

        impl From<f64> for $record {
            #[inline]
            fn from(re: f64) -> Self {
                Self::from_re(re)
            }
        }

        impl Neg for $record {
            type Output = Self;
            #[inline]
            fn neg(self) -> Self {
                answer(Function::Neg, &[self], &[])
            }
        }

        impl Neg for &$record {
            type Output = $record;
            #[inline]
            fn neg(self) -> $record {
                -*self
            }
        }

        operators! { $record:
            Add add AddAssign add_assign +, AddFloat;
            Sub sub SubAssign sub_assign -, SubFloat;
            Mul mul MulAssign mul_assign *, MulFloat;
            Div div DivAssign div_assign /, DivFloat;
        }
        comparisons!($record);
        runs!($record: Sum sum +, Product product *);
    };
}

/// Records with records, by value and by reference; records with floats on the right; assigning.
macro_rules! operators {
    ($record:ident: $($operator:ident $name:ident $assigning:ident $name_assign:ident $sign:tt,
        $with_float:ident;)*) => {$(
        impl $operator for $record {
            type Output = Self;
            #[inline]
            fn $name(self, other: Self) -> Self {
                joined(exports::$name, &[self, other])
            }
        }

        impl $operator<&$record> for $record {
            type Output = Self;
            #[inline]
            fn $name(self, other: &Self) -> Self {
                self $sign *other
            }
        }

        impl $operator<$record> for &$record {
            type Output = $record;
            #[inline]
            fn $name(self, other: $record) -> $record {
                *self $sign other
            }
        }

        impl $operator<&$record> for &$record {
            type Output = $record;
            #[inline]
            fn $name(self, other: &$record) -> $record {
                *self $sign *other
            }
        }

        impl $operator<f64> for $record {
            type Output = Self;
            #[inline]
            fn $name(self, other: f64) -> Self {
                answer(Function::$with_float, &[self], &[other])
            }
        }

        impl $assigning for $record {
            #[inline]
            fn $name_assign(&mut self, other: Self) {
                *self = *self $sign other;
            }
        }

        impl $assigning<f64> for $record {
            #[inline]
            fn $name_assign(&mut self, other: f64) {
                *self = *self $sign other;
            }
        }
    )*};
}

/// Of real parts alone, so that code follows the path that it would follow over f64.
macro_rules! comparisons {
    ($record:ident) => {
        /// Only real parts are compared.
        impl PartialEq for $record {
            #[inline]
            fn eq(&self, other: &Self) -> bool {
                holds(Function::Eq, &[*self, *other])
            }
        }

        /// Only real parts are compared.
        impl PartialOrd for $record {
            #[inline]
            fn partial_cmp(&self, other: &Self) -> Option<Ordering> {
                if self < other {
                    Some(Ordering::Less)
                } else if self > other {
                    Some(Ordering::Greater)
                } else if self == other {
                    Some(Ordering::Equal)
                } else {
                    None
                }
            }

            #[inline]
            fn lt(&self, other: &Self) -> bool {
                holds(Function::Lt, &[*self, *other])
            }

            #[inline]
            fn le(&self, other: &Self) -> bool {
                holds(Function::Le, &[*self, *other])
            }

            #[inline]
            fn gt(&self, other: &Self) -> bool {
                holds(Function::Gt, &[*self, *other])
            }

            #[inline]
            fn ge(&self, other: &Self) -> bool {
                holds(Function::Ge, &[*self, *other])
            }
        }

        /// With the real part.
        impl PartialEq<f64> for $record {
            #[inline]
            fn eq(&self, other: &f64) -> bool {
                *self == Self::from_re(*other)
            }
        }

        /// With the real part.
        impl PartialOrd<f64> for $record {
            #[inline]
            fn partial_cmp(&self, other: &f64) -> Option<Ordering> {
                self.partial_cmp(&Self::from_re(*other))
            }
        }
    };
}

/// How many records of an iterator are collected for one call of the library.
const RUN: usize = 1 << 16;

/// Sum from zero and Product from one, left to right: a run in one call of the library, and from
/// there record by record, so that an iterator of any length, or one that promises too many, takes
/// little memory.
macro_rules! runs {
    ($record:ident: $($run:ident $name:ident $sign:tt),*) => {$(
        impl $run for $record {
            fn $name<I: Iterator<Item = Self>>(records: I) -> Self {
                let mut records = records.fuse();
                let run: Vec<Self> = records.by_ref().take(RUN).collect();
                records.fold(joined(exports::$name, &run), |joined, record| joined $sign record)
            }
        }

        impl<'a> $run<&'a $record> for $record {
            fn $name<I: Iterator<Item = &'a $record>>(records: I) -> Self {
                records.copied().$name()
            }
        }
    )*};
}

record! {
    /// A dual number, for first derivatives.
    ///
    /// ```
    /// use evindrast::{Dual64, DualNum};
    /// let x = Dual64::from_re(5.0).derivative().powi(2);
    /// assert_eq!(x.re, 25.0);
    /// assert_eq!(x.eps, 10.0);
    ///
    /// // P2: a quotient multiplies with the reciprocal, as num-dual's does
    /// let one = Dual64::from_re(49.0) / Dual64::from_re(49.0);
    /// assert_eq!(one.re.to_bits(), 0x3fefffffffffffff);
    /// ```
    Dual64: Dual, 1,
    [re "Real part", eps "Derivative part"],
    [derivative eps]
}

record! {
    /// A second order dual number, for second derivatives.
    ///
    /// ```
    /// use evindrast::{Dual2_64, DualNum};
    /// let x = Dual2_64::from_re(5.0).derivative().powi(2);
    /// assert_eq!((x.re, x.v1, x.v2), (25.0, 10.0, 2.0));
    /// ```
    #[allow(non_camel_case_types)]
    Dual2_64: Dual2, 2,
    [re "Real part", v1 "First derivative part", v2 "Second derivative part"],
    [derivative v1]
}

record! {
    /// A third order dual number, for third derivatives.
    ///
    /// ```
    /// use evindrast::{Dual3_64, DualNum};
    /// // P8
    /// let x = Dual3_64::from_re(5.0).derivative().powi(3);
    /// assert_eq!((x.re, x.v1, x.v2, x.v3), (125.0, 75.0, 30.0, 6.0));
    /// ```
    #[allow(non_camel_case_types)]
    Dual3_64: Dual3, 3,
    [
        re "Real part",
        v1 "First derivative part",
        v2 "Second derivative part",
        v3 "Third derivative part"
    ],
    [derivative v1]
}

record! {
    /// A hyper-dual number, for second partial derivatives.
    ///
    /// ```
    /// use evindrast::HyperDual64;
    /// let x = HyperDual64::from_re(3.0).derivative1();
    /// let y = HyperDual64::from_re(4.0).derivative2();
    /// let z = x * x * y;
    /// assert_eq!((z.re, z.eps1, z.eps2, z.eps1eps2), (36.0, 24.0, 9.0, 6.0));
    /// ```
    HyperDual64: HyperDual, 2,
    [
        re "Real part",
        eps1 "Partial derivative part, 1st variable",
        eps2 "Partial derivative part, 2nd variable",
        eps1eps2 "Second partial derivative part"
    ],
    [derivative1 eps1, derivative2 eps2]
}

record! {
    /// A hyper-hyper-dual number, for third partial derivatives.
    ///
    /// ```
    /// use evindrast::HyperHyperDual64;
    /// let x = HyperHyperDual64::from_re(2.0).derivative1();
    /// let y = HyperHyperDual64::from_re(3.0).derivative2();
    /// let z = HyperHyperDual64::from_re(5.0).derivative3();
    /// let w = x * y * z;
    /// assert_eq!((w.re, w.eps1, w.eps2, w.eps3), (30.0, 15.0, 10.0, 6.0));
    /// assert_eq!((w.eps1eps2, w.eps1eps3, w.eps2eps3, w.eps1eps2eps3), (5.0, 3.0, 2.0, 1.0));
    /// ```
    HyperHyperDual64: HyperHyperDual, 3,
    [
        re "Real part",
        eps1 "First partial derivative part, 1st variable",
        eps2 "First partial derivative part, 2nd variable",
        eps3 "First partial derivative part, 3rd variable",
        eps1eps2 "Second partial derivative part",
        eps1eps3 "Second partial derivative part",
        eps2eps3 "Second partial derivative part",
        eps1eps2eps3 "Third partial derivative part"
    ],
    [derivative1 eps1, derivative2 eps2, derivative3 eps3]
}

macro_rules! series {
    ($($(#[$example:meta])* $record:ident;)*) => {$(
        impl $record {
            /// 1st order spherical Bessel function of the first kind, with its third derivative
            /// about 0: where |re| is below 2^-52 the first two terms of its series (DLMF 10.53),
            /// `x / 3.0 - x * x * x / 30.0`.
            ///
            /// Take [`sph_j1`](DualNum::sph_j1) for what num-dual gives, float for float, whose
            /// third derivative is 0 there, and this for the third derivative itself. From 2^-52
            /// up, and for a NaN, both are one. Below, the real parts are one too, but that this
            /// has +0 where `sph_j1` has -0.
            ///
            $(#[$example])*
            #[inline]
            pub fn sph_j1_series(&self) -> Self {
                answer(Function::SphJ1Series, &[*self], &sine_cosine(self))
            }
        }
    )*};
}

series! {
    /// ```
    /// use evindrast::{Dual3_64, DualNum};
    /// let x = Dual3_64::from_re(0.0).derivative();
    /// assert_eq!((x.sph_j1_series().v1, x.sph_j1_series().v3), (1.0 / 3.0, -0.2));
    /// assert_eq!((x.sph_j1().v1, x.sph_j1().v3), (1.0 / 3.0, 0.0));
    /// ```
    Dual3_64;

    /// ```
    /// use evindrast::{DualNum, HyperHyperDual64};
    /// let x = HyperHyperDual64::from_re(0.0).derivative1().derivative2().derivative3();
    /// assert_eq!(x.sph_j1_series().eps1eps2eps3, -0.2);
    /// assert_eq!(x.sph_j1().eps1eps2eps3, 0.0);
    /// ```
    HyperHyperDual64;
}
