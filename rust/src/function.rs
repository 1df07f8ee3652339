//! The kinds of records and the functions on them, by the library's numbers.

/// The kinds of records.
#[derive(Copy, Clone, Debug, PartialEq, Eq)]
#[repr(u32)]
pub enum Kind {
    /// [`Dual64`](crate::Dual64)
    Dual = 1,
    /// [`Dual2_64`](crate::Dual2_64)
    Dual2 = 2,
    /// [`Dual3_64`](crate::Dual3_64)
    Dual3 = 3,
    /// [`HyperDual64`](crate::HyperDual64)
    HyperDual = 4,
    /// [`HyperHyperDual64`](crate::HyperHyperDual64)
    HyperHyperDual = 5,
}

macro_rules! functions {
    ($($function:ident = $number:literal $about:literal;)*) => {
        /// The functions of records. Each takes the records x, y, z that are named and the floats
        /// in brackets, in this order, and gives one record unless said otherwise. Values like
        /// sin(re) come from outside and are taken at the real part of x (yre: of y).
        #[derive(Copy, Clone, Debug, PartialEq, Eq)]
        #[repr(u32)]
        pub enum Function {
            $(#[doc = $about] $function = $number,)*
        }

        impl Function {
            /// Every function, by its number.
            pub const ALL: &'static [Function] = &[$(Function::$function),*];
        }
    };
}

functions! {
    Zero = 0x01 "none";
    One = 0x02 "none";
    FromRe = 0x04 "none, `[re]`";
    Derivative = 0x05 "x; `Dual64`, `Dual2_64`, `Dual3_64`";
    Derivative1 = 0x06 "x; `HyperDual64`, `HyperHyperDual64`";
    Derivative2 = 0x07 "x; `HyperDual64`, `HyperHyperDual64`";
    Derivative3 = 0x08 "x; `HyperHyperDual64`";
    Add = 0x09 "x, y";
    Sub = 0x0a "x, y";
    Mul = 0x0b "x, y";
    Div = 0x0c "x, y";
    Neg = 0x0d "x";
    MulFloat = 0x0e "x `[factor]`: each part";
    DivFloat = 0x0f "x `[divisor]`: each part";
    AddFloat = 0x10 "x `[summand]`: re alone";
    SubFloat = 0x11 "x `[subtrahend]`: re alone";
    Scale = 0x12 "x `[factor]`";
    Abs = 0x15 "x";
    Signum = 0x16 "x";
    AbsSub = 0x17 "x, y";
    Recip = 0x18 "x";
    Inv = 0x19 "x";
    Sqrt = 0x1a "x";
    Powi = 0x1b "x `[re^(exponent-3)]`, with an exponent";
    Powf = 0x1c "x `[n, re^(((n-1)-1)-1)]`";
    Cbrt = 0x1d "x `[cbrt(re)]`";
    Exp = 0x1e "x `[exp(re)]`";
    Exp2 = 0x1f "x `[exp2(re)]`";
    ExpM1 = 0x20 "x `[exp_m1(re), exp(re)]`";
    Ln = 0x21 "x `[ln(re)]`";
    Log = 0x22 "x `[log of re to the base, ln of the base]`";
    Log2 = 0x23 "x `[log2(re)]`";
    Log10 = 0x24 "x `[log10(re)]`";
    Ln1p = 0x25 "x `[ln_1p(re)]`";
    Sin = 0x26 "x `[sin(re), cos(re)]`";
    Cos = 0x27 "x `[sin(re), cos(re)]`";
    SinCos = 0x28 "x `[sin(re), cos(re)]`: two records, the sine first";
    Tan = 0x29 "x `[sin(re), cos(re)]`";
    Asin = 0x2a "x `[asin(re)]`";
    Acos = 0x2b "x `[acos(re)]`";
    Atan = 0x2c "x `[atan(re)]`";
    Atan2 = 0x2d "x, y `[atan(re * (1 / yre)), atan2(re, yre)]`";
    Sinh = 0x2e "x `[sinh(re), cosh(re)]`";
    Cosh = 0x2f "x `[sinh(re), cosh(re)]`";
    Tanh = 0x30 "x `[sinh(re), cosh(re)]`";
    Asinh = 0x31 "x `[asinh(re)]`";
    Acosh = 0x32 "x `[acosh(re)]`";
    Atanh = 0x33 "x `[atanh(re)]`";
    SphJ0 = 0x34 "x `[sin(re), cos(re)]`";
    SphJ1 = 0x35 "x `[sin(re), cos(re)]`";
    SphJ2 = 0x36 "x `[sin(re), cos(re)]`";
    MulAdd = 0x37 "x, y, z";
    Powd = 0x38 "x, y `[ln(re), exp(ln(re) * yre)]`";
    Eq = 0x3b "x, y: a truth";
    Lt = 0x3c "x, y: a truth";
    Le = 0x3d "x, y: a truth";
    Gt = 0x3e "x, y: a truth";
    Ge = 0x3f "x, y: a truth";
    IsNegative = 0x40 "x: a truth";
    IsPositive = 0x41 "x: a truth";
    IsZero = 0x42 "x: a truth";
    IsOne = 0x43 "x: a truth";
    SphJ1Series = 0x44 "x `[sin(re), cos(re)]`; `Dual3_64`, `HyperHyperDual64`";
}
