//! A float whose outside functions answer what was supplied, and which keeps a list of the calls.
//! Its arithmetic, `recip`, `sqrt` and `abs` are f64's. The records of the original, instantiated
//! over it, give the Rust's own answer for any supplied values.
use crate::original::{DualNum, DualNumFloat, DualStruct, Mappable};
use num_traits::{
    Float, FloatConst, FromPrimitive, Inv, Num, NumCast, One, Signed, ToPrimitive, Zero,
};
use std::cell::RefCell;
use std::fmt;
use std::iter::{Product, Sum};
use std::num::FpCategory;
use std::ops::{
    Add, AddAssign, Div, DivAssign, Mul, MulAssign, Neg, Rem, RemAssign, Sub, SubAssign,
};

/// The functions of f64 that Rattle has not.
#[derive(Copy, Clone, Debug, PartialEq, Eq, PartialOrd, Ord)]
#[rustfmt::skip]
pub enum Outside {
    Powi, Powf, Cbrt, Exp, Exp2, ExpM1, Ln, Log, Log2, Log10, Ln1p, Sin, Cos, Asin, Acos, Atan,
    Atan2, Sinh, Cosh, Asinh, Acosh, Atanh,
}

impl Outside {
    /// f64's own value.
    pub fn own(self, arguments: &[f64]) -> f64 {
        let x = arguments[0];
        match self {
            Outside::Powi => x.powi(arguments[1] as i32),
            Outside::Powf => x.powf(arguments[1]),
            Outside::Log => x.log(arguments[1]),
            Outside::Atan2 => x.atan2(arguments[1]),
            Outside::Cbrt => x.cbrt(),
            Outside::Exp => x.exp(),
            Outside::Exp2 => x.exp2(),
            Outside::ExpM1 => x.exp_m1(),
            Outside::Ln => x.ln(),
            Outside::Log2 => x.log2(),
            Outside::Log10 => x.log10(),
            Outside::Ln1p => x.ln_1p(),
            Outside::Sin => x.sin(),
            Outside::Cos => x.cos(),
            Outside::Asin => x.asin(),
            Outside::Acos => x.acos(),
            Outside::Atan => x.atan(),
            Outside::Sinh => x.sinh(),
            Outside::Cosh => x.cosh(),
            Outside::Asinh => x.asinh(),
            Outside::Acosh => x.acosh(),
            Outside::Atanh => x.atanh(),
        }
    }
}

/// One call of an outside function (of a pair of them for `sin_cos`, which logs two).
#[derive(Clone, Debug)]
pub struct Call {
    pub outside: Outside,
    pub arguments: Vec<f64>,
}

#[derive(Default)]
struct Script {
    values: Vec<(Outside, f64)>,
    calls: Vec<Call>,
}

thread_local! {
    static SCRIPT: RefCell<Script> = RefCell::default();
}

/// Runs `work` with these values supplied; its result, and the calls that it made.
pub fn with_supplied<R>(values: &[(Outside, f64)], work: impl FnOnce() -> R) -> (R, Vec<Call>) {
    SCRIPT.set(Script { values: values.to_vec(), calls: vec![] });
    let result = work();
    (result, SCRIPT.take().calls)
}

/// The value supplied for this function, or f64's own where none was.
fn ask(outside: Outside, arguments: &[f64]) -> Supplied {
    SCRIPT.with_borrow_mut(|script| {
        script.calls.push(Call { outside, arguments: arguments.to_vec() });
        let supplied = script.values.iter().find(|(name, _)| *name == outside);
        Supplied(supplied.map_or_else(|| outside.own(arguments), |(_, value)| *value))
    })
}

#[derive(Copy, Clone, Debug, PartialEq, PartialOrd)]
pub struct Supplied(pub f64);

macro_rules! operators {
    ($($operator:ident $name:ident, $assigning:ident $name_assign:ident, $sign:tt;)*) => {$(
        impl $operator for Supplied {
            type Output = Self;
            fn $name(self, other: Self) -> Self {
                Supplied(self.0 $sign other.0)
            }
        }
        impl $operator<&Supplied> for Supplied {
            type Output = Self;
            fn $name(self, other: &Self) -> Self {
                self $sign *other
            }
        }
        impl $assigning for Supplied {
            fn $name_assign(&mut self, other: Self) {
                *self = *self $sign other;
            }
        }
    )*};
}

operators! {
    Add add, AddAssign add_assign, +;
    Sub sub, SubAssign sub_assign, -;
    Mul mul, MulAssign mul_assign, *;
    Div div, DivAssign div_assign, /;
    Rem rem, RemAssign rem_assign, %;
}

impl Neg for Supplied {
    type Output = Self;
    fn neg(self) -> Self {
        Supplied(-self.0)
    }
}

impl fmt::Display for Supplied {
    fn fmt(&self, f: &mut fmt::Formatter) -> fmt::Result {
        self.0.fmt(f)
    }
}

impl Zero for Supplied {
    fn zero() -> Self {
        Supplied(0.0)
    }
    fn is_zero(&self) -> bool {
        self.0.is_zero()
    }
}

impl One for Supplied {
    fn one() -> Self {
        Supplied(1.0)
    }
}

impl Inv for Supplied {
    type Output = Self;
    fn inv(self) -> Self {
        Supplied(Inv::inv(self.0))
    }
}

impl Sum for Supplied {
    fn sum<I: Iterator<Item = Self>>(items: I) -> Self {
        Supplied(items.map(|x| x.0).sum())
    }
}

impl Product for Supplied {
    fn product<I: Iterator<Item = Self>>(items: I) -> Self {
        Supplied(items.map(|x| x.0).product())
    }
}

impl Num for Supplied {
    type FromStrRadixErr = <f64 as Num>::FromStrRadixErr;
    fn from_str_radix(text: &str, radix: u32) -> Result<Self, Self::FromStrRadixErr> {
        f64::from_str_radix(text, radix).map(Supplied)
    }
}

impl Signed for Supplied {
    fn abs(&self) -> Self {
        Supplied(Signed::abs(&self.0))
    }
    fn abs_sub(&self, other: &Self) -> Self {
        Supplied(Signed::abs_sub(&self.0, &other.0))
    }
    fn signum(&self) -> Self {
        Supplied(Signed::signum(&self.0))
    }
    fn is_positive(&self) -> bool {
        Signed::is_positive(&self.0)
    }
    fn is_negative(&self) -> bool {
        Signed::is_negative(&self.0)
    }
}

impl ToPrimitive for Supplied {
    fn to_i64(&self) -> Option<i64> {
        self.0.to_i64()
    }
    fn to_u64(&self) -> Option<u64> {
        self.0.to_u64()
    }
    fn to_f64(&self) -> Option<f64> {
        Some(self.0)
    }
}

impl NumCast for Supplied {
    fn from<N: ToPrimitive>(number: N) -> Option<Self> {
        number.to_f64().map(Supplied)
    }
}

macro_rules! from_primitive {
    ($($name:ident $number:ty),*) => {
        impl FromPrimitive for Supplied {
            $(fn $name(number: $number) -> Option<Self> {
                f64::$name(number).map(Supplied)
            })*
        }
    };
}

from_primitive!(from_i32 i32, from_i64 i64, from_u64 u64, from_usize usize, from_f64 f64);

macro_rules! constants {
    ($($name:ident),*) => {
        impl FloatConst for Supplied {
            $(fn $name() -> Self {
                Supplied(<f64 as FloatConst>::$name())
            })*
        }
    };
}

constants!(
    E,
    FRAC_1_PI,
    FRAC_1_SQRT_2,
    FRAC_2_PI,
    FRAC_2_SQRT_PI,
    FRAC_PI_2,
    FRAC_PI_3,
    FRAC_PI_4,
    FRAC_PI_6,
    FRAC_PI_8,
    LN_10,
    LN_2,
    LOG10_E,
    LOG2_E,
    PI,
    SQRT_2
);

impl DualStruct for Supplied {
    type Real = Self;
    type Inner = Self;
    fn re(&self) -> Self {
        *self
    }
    fn from_inner(inner: &Self) -> Self {
        *inner
    }
}

impl Mappable<Supplied> for Supplied {
    type Output<O> = O;
    fn map_dual<M: Fn(Supplied) -> O, O>(self, map: M) -> O {
        map(self)
    }
}

/// Outside functions of one argument, under f64's names.
macro_rules! outside {
    ($($name:ident $outside:ident),*) => {
        $(fn $name(&self) -> Self {
            ask(Outside::$outside, &[self.0])
        })*
    };
}

/// Functions of the part type that the records have no cause to call: a call stops the run.
macro_rules! never {
    ($($name:ident),*) => {
        $(fn $name(&self) -> Self {
            panic!(concat!("the original called ", stringify!($name), " of the part type"))
        })*
    };
}

impl DualNum for Supplied {
    type Primitive = Self;
    const NDERIV: usize = 0;
    type InnerDual = Self;

    fn from_re(re: Self) -> Self {
        re
    }
    fn scale(self, factor: &Self) -> Self {
        self * factor
    }
    fn recip(&self) -> Self {
        Supplied(f64::recip(self.0))
    }
    fn sqrt(&self) -> Self {
        Supplied(f64::sqrt(self.0))
    }
    fn powi(&self, n: i32) -> Self {
        ask(Outside::Powi, &[self.0, n as f64])
    }
    fn powf(&self, n: Self) -> Self {
        ask(Outside::Powf, &[self.0, n.0])
    }
    fn log(&self, base: Self) -> Self {
        ask(Outside::Log, &[self.0, base.0])
    }
    fn atan2(&self, other: Self) -> Self {
        ask(Outside::Atan2, &[self.0, other.0])
    }
    fn sin_cos(&self) -> (Self, Self) {
        (ask(Outside::Sin, &[self.0]), ask(Outside::Cos, &[self.0]))
    }
    outside!(
        cbrt Cbrt, exp Exp, exp2 Exp2, exp_m1 ExpM1, ln Ln, log2 Log2, log10 Log10, ln_1p Ln1p,
        sin Sin, cos Cos, asin Asin, acos Acos, atan Atan, sinh Sinh, cosh Cosh, asinh Asinh,
        acosh Acosh, atanh Atanh
    );
    never!(tan, tanh, sph_j0, sph_j1, sph_j2);
    fn mul_add(&self, _a: Self, _b: Self) -> Self {
        panic!("the original called mul_add of the part type")
    }
    fn powd(&self, _exp: Self) -> Self {
        panic!("the original called powd of the part type")
    }
}

impl DualNumFloat for Supplied {
    const THIRD: Self = Supplied(<f64 as DualNumFloat>::THIRD);
    const HALF: Self = Supplied(<f64 as DualNumFloat>::HALF);
    const TWO: Self = Supplied(<f64 as DualNumFloat>::TWO);
    const THREE: Self = Supplied(<f64 as DualNumFloat>::THREE);
    const FOUR: Self = Supplied(<f64 as DualNumFloat>::FOUR);
    const SIX: Self = Supplied(<f64 as DualNumFloat>::SIX);
    const TEN: Self = Supplied(<f64 as DualNumFloat>::TEN);
    const FIFTEEN: Self = Supplied(<f64 as DualNumFloat>::FIFTEEN);
}

/// What `Float` asks, handed to f64: constants, tests, and functions to floats.
macro_rules! float {
    (constants $($constant:ident),*; tests $($test:ident),*; floats $($float:ident),*) => {
        $(fn $constant() -> Self {
            Supplied(<f64 as Float>::$constant())
        })*
        $(fn $test(self) -> bool {
            Float::$test(self.0)
        })*
        $(fn $float(self) -> Self {
            Supplied(Float::$float(self.0))
        })*
    };
}

/// num_traits' outside functions are those above.
macro_rules! same {
    ($($name:ident ($($other:ident),*)),*) => {
        $(fn $name(self, $($other: Self),*) -> Self {
            DualNum::$name(&self, $($other),*)
        })*
    };
}

impl Float for Supplied {
    float!(
        constants nan, infinity, neg_infinity, neg_zero, min_value, min_positive_value, epsilon,
            max_value;
        tests is_nan, is_infinite, is_finite, is_normal, is_sign_positive, is_sign_negative;
        floats floor, ceil, round, trunc, fract, abs, signum, recip, sqrt
    );
    same!(
        powf(n),
        exp(),
        exp2(),
        ln(),
        log(base),
        log2(),
        log10(),
        cbrt(),
        sin(),
        cos(),
        tan(),
        asin(),
        acos(),
        atan(),
        atan2(other),
        exp_m1(),
        ln_1p(),
        sinh(),
        cosh(),
        tanh(),
        asinh(),
        acosh(),
        atanh(),
        mul_add(a, b)
    );
    fn max(self, other: Self) -> Self {
        Supplied(Float::max(self.0, other.0))
    }
    fn min(self, other: Self) -> Self {
        Supplied(Float::min(self.0, other.0))
    }
    fn abs_sub(self, other: Self) -> Self {
        Signed::abs_sub(&self, &other)
    }
    fn hypot(self, _other: Self) -> Self {
        panic!("the original called hypot")
    }
    fn sin_cos(self) -> (Self, Self) {
        DualNum::sin_cos(&self)
    }
    fn powi(self, n: i32) -> Self {
        DualNum::powi(&self, n)
    }
    fn classify(self) -> FpCategory {
        self.0.classify()
    }
    fn integer_decode(self) -> (u64, i16, i8) {
        Float::integer_decode(self.0)
    }
}
