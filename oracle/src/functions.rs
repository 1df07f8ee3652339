//! The functions of the records: their numbers, what a line carries for each, and the call of
//! the original. The table here is the one source; README.md repeats it.
use crate::record::{Part, Record};
use crate::supplied::Outside;
use crate::words::{word, words};

/// What stands in a line between the records and the answer.
#[derive(Copy, Clone, Debug, PartialEq)]
pub enum Extra {
    /// A plain float, or powf's exponent.
    Float,
    /// powi's exponent, in two's complement.
    Exponent,
    /// The value of an outside function.
    Value(Outside),
}

/// What the answer's words are.
#[derive(Copy, Clone, Debug, PartialEq)]
pub enum Shape {
    /// The parts of one record.
    Record,
    /// The parts of two records.
    Pair,
    /// A whole number.
    Number,
}

#[derive(Debug)]
pub struct Description {
    pub function: Function,
    pub name: &'static str,
    /// How many records it takes.
    pub records: usize,
    pub extras: &'static [Extra],
    pub shape: Shape,
}

macro_rules! functions {
    ($($function:ident $number:literal $name:literal $records:literal [$($extra:expr),*] $shape:ident;)*) => {
        #[derive(Copy, Clone, Debug, PartialEq, Eq)]
        pub enum Function { $($function = $number),* }

        pub const FUNCTIONS: &[Description] = &[$(Description {
            function: Function::$function,
            name: $name,
            records: $records,
            extras: {
                #[allow(unused_imports)]
                use {Extra::*, Outside::*};
                &[$($extra),*]
            },
            shape: Shape::$shape,
        }),*];
    };
}

#[rustfmt::skip]
functions! {
    Zero 0x01 "zero" 0 [] Record;
    One 0x02 "one" 0 [] Record;
    Nderiv 0x03 "NDERIV" 0 [] Number;
    FromRe 0x04 "from_re" 0 [Float] Record;
    Derivative 0x05 "derivative" 1 [] Record;
    Derivative1 0x06 "derivative1" 1 [] Record;
    Derivative2 0x07 "derivative2" 1 [] Record;
    Derivative3 0x08 "derivative3" 1 [] Record;
    Add 0x09 "add" 2 [] Record;
    Sub 0x0a "sub" 2 [] Record;
    Mul 0x0b "mul" 2 [] Record;
    Div 0x0c "div" 2 [] Record;
    Neg 0x0d "neg" 1 [] Record;
    MulFloat 0x0e "mul float" 1 [Float] Record;
    DivFloat 0x0f "div float" 1 [Float] Record;
    AddFloat 0x10 "add float" 1 [Float] Record;
    SubFloat 0x11 "sub float" 1 [Float] Record;
    Scale 0x12 "scale" 1 [Float] Record;
    Abs 0x15 "abs" 1 [] Record;
    Signum 0x16 "signum" 1 [] Record;
    AbsSub 0x17 "abs_sub" 2 [] Record;
    Recip 0x18 "recip" 1 [] Record;
    Inv 0x19 "inv" 1 [] Record;
    Sqrt 0x1a "sqrt" 1 [] Record;
    Powi 0x1b "powi" 1 [Exponent, Value(Powi)] Record;
    Powf 0x1c "powf" 1 [Float, Value(Powf)] Record;
    Cbrt 0x1d "cbrt" 1 [Value(Cbrt)] Record;
    Exp 0x1e "exp" 1 [Value(Exp)] Record;
    Exp2 0x1f "exp2" 1 [Value(Exp2)] Record;
    ExpM1 0x20 "exp_m1" 1 [Value(ExpM1), Value(Exp)] Record;
    Ln 0x21 "ln" 1 [Value(Ln)] Record;
    Log 0x22 "log" 1 [Value(Log), Value(Ln)] Record;
    Log2 0x23 "log2" 1 [Value(Log2)] Record;
    Log10 0x24 "log10" 1 [Value(Log10)] Record;
    Ln1p 0x25 "ln_1p" 1 [Value(Ln1p)] Record;
    Sin 0x26 "sin" 1 [Value(Sin), Value(Cos)] Record;
    Cos 0x27 "cos" 1 [Value(Sin), Value(Cos)] Record;
    SinCos 0x28 "sin_cos" 1 [Value(Sin), Value(Cos)] Pair;
    Tan 0x29 "tan" 1 [Value(Sin), Value(Cos)] Record;
    Asin 0x2a "asin" 1 [Value(Asin)] Record;
    Acos 0x2b "acos" 1 [Value(Acos)] Record;
    Atan 0x2c "atan" 1 [Value(Atan)] Record;
    Atan2 0x2d "atan2" 2 [Value(Atan), Value(Atan2)] Record;
    Sinh 0x2e "sinh" 1 [Value(Sinh), Value(Cosh)] Record;
    Cosh 0x2f "cosh" 1 [Value(Sinh), Value(Cosh)] Record;
    Tanh 0x30 "tanh" 1 [Value(Sinh), Value(Cosh)] Record;
    Asinh 0x31 "asinh" 1 [Value(Asinh)] Record;
    Acosh 0x32 "acosh" 1 [Value(Acosh)] Record;
    Atanh 0x33 "atanh" 1 [Value(Atanh)] Record;
    SphJ0 0x34 "sph_j0" 1 [Value(Sin), Value(Cos)] Record;
    SphJ1 0x35 "sph_j1" 1 [Value(Sin), Value(Cos)] Record;
    SphJ2 0x36 "sph_j2" 1 [Value(Sin), Value(Cos)] Record;
    MulAdd 0x37 "mul_add" 3 [] Record;
    Powd 0x38 "powd" 2 [Value(Ln), Value(Exp)] Record;
    Eq 0x3b "eq" 2 [] Number;
    Lt 0x3c "lt" 2 [] Number;
    Le 0x3d "le" 2 [] Number;
    Gt 0x3e "gt" 2 [] Number;
    Ge 0x3f "ge" 2 [] Number;
    IsNegative 0x40 "is_negative" 1 [] Number;
    IsPositive 0x41 "is_positive" 1 [] Number;
    IsZero 0x42 "is_zero" 1 [] Number;
    IsOne 0x43 "is_one" 1 [] Number;
    SphJ1Series 0x44 "sph_j1_series" 1 [Value(Sin), Value(Cos)] Record;
}

impl Description {
    /// The outside functions whose values a line carries, in its order.
    pub fn outside(&self) -> Vec<Outside> {
        let value = |extra: &Extra| match extra {
            Extra::Value(outside) => Some(*outside),
            _ => None,
        };
        self.extras.iter().filter_map(value).collect()
    }

    pub fn answer_words(&self, parts: usize) -> usize {
        match self.shape {
            Shape::Record => parts,
            Shape::Pair => 2 * parts,
            Shape::Number => 1,
        }
    }
}

/// What a call takes besides records: a plain float, powf's exponent or log's base; powi's exponent.
#[derive(Copy, Clone, Debug, Default)]
pub struct Argument {
    pub float: f64,
    pub exponent: i32,
}

/// The original's answer, as words. Where Rust writes an operation in several forms (by value, by
/// reference, assigning) all of them are called and must agree.
pub fn evaluate<F: Part, R: Record<F>>(
    function: Function,
    records: &[R],
    argument: Argument,
) -> Vec<u64> {
    let k = F::of(argument.float);
    match (function, records) {
        (Function::Zero, _) => parts(R::zero()),
        (Function::One, _) => parts(R::one()),
        (Function::Nderiv, _) => vec![R::NDERIV as u64],
        (Function::FromRe, _) => agreed([<R as crate::original::DualNum>::from_re(k), R::from(k)]),
        (_, [x]) => of_one(function, *x, k, argument.exponent),
        (_, [x, y]) => of_two(function, *x, *y),
        (Function::MulAdd, [x, y, z]) => parts(x.mul_add(*y, *z)),
        _ => panic!("{function:?} of {} records", records.len()),
    }
}

fn of_one<F: Part, R: Record<F>>(function: Function, x: R, k: F, exponent: i32) -> Vec<u64> {
    match function {
        Function::Neg => parts(-x),
        Function::MulFloat => agreed([x * k, assigned(x, |a| *a *= k)]),
        Function::DivFloat => agreed([x / k, assigned(x, |a| *a /= k)]),
        Function::AddFloat => agreed([x + k, assigned(x, |a| *a += k)]),
        Function::SubFloat => agreed([x - k, assigned(x, |a| *a -= k)]),
        Function::Scale => parts(x.scale(&k)),
        Function::IsNegative => truth(x.is_negative()),
        Function::IsPositive => truth(x.is_positive()),
        Function::IsZero => truth(x.is_zero()),
        Function::IsOne => truth(x.is_one()),
        Function::Abs => parts(x.abs()),
        Function::Signum => parts(x.signum()),
        Function::Recip => parts(x.recip()),
        Function::Inv => parts(x.inv()),
        Function::Sqrt => parts(x.sqrt()),
        Function::Powi => parts(x.powi(exponent)),
        Function::Powf => parts(x.powf(k)),
        Function::Log => parts(x.log(k)),
        Function::SinCos => {
            let (sin, cos) = x.sin_cos();
            [parts(sin), parts(cos)].concat()
        }
        Function::Derivative
        | Function::Derivative1
        | Function::Derivative2
        | Function::Derivative3 => parts(x.derivative(function)),
        _ => parts(elementary(function, x)),
    }
}

/// The functions that take nothing but the record.
fn elementary<F: Part, R: Record<F>>(function: Function, x: R) -> R {
    match function {
        Function::Cbrt => x.cbrt(),
        Function::Exp => x.exp(),
        Function::Exp2 => x.exp2(),
        Function::ExpM1 => x.exp_m1(),
        Function::Ln => x.ln(),
        Function::Log2 => x.log2(),
        Function::Log10 => x.log10(),
        Function::Ln1p => x.ln_1p(),
        Function::Sin => x.sin(),
        Function::Cos => x.cos(),
        Function::Tan => x.tan(),
        Function::Asin => x.asin(),
        Function::Acos => x.acos(),
        Function::Atan => x.atan(),
        Function::Sinh => x.sinh(),
        Function::Cosh => x.cosh(),
        Function::Tanh => x.tanh(),
        Function::Asinh => x.asinh(),
        Function::Acosh => x.acosh(),
        Function::Atanh => x.atanh(),
        Function::SphJ0 => x.sph_j0(),
        Function::SphJ1 => x.sph_j1(),
        Function::SphJ2 => x.sph_j2(),
        Function::SphJ1Series => sph_j1_series(x),
        _ => panic!("{function:?} of one record"),
    }
}

/// Document 02's rule (wish 4) over the original's operations, which the original itself has not:
/// below 2^-52 the first two terms of the series of sph_j1 (DLMF 10.53), elsewhere sph_j1.
pub fn sph_j1_series<F: Part, R: Record<F>>(x: R) -> R {
    if x.re().value().abs() < f64::EPSILON {
        x / F::of(3.0) - ((x * x) * x) / F::of(30.0)
    } else {
        x.sph_j1()
    }
}

fn of_two<F: Part, R: Record<F>>(function: Function, x: R, y: R) -> Vec<u64> {
    match function {
        Function::Add => agreed([x + y, x + &y, assigned(x, |a| *a += y)]),
        Function::Sub => agreed([x - y, x - &y, assigned(x, |a| *a -= y)]),
        Function::Mul => agreed([x * y, x * &y, assigned(x, |a| *a *= y)]),
        Function::Div => agreed([x / y, x / &y, assigned(x, |a| *a /= y)]),
        Function::AbsSub => parts(x.abs_sub(&y)),
        Function::Atan2 => parts(x.atan2(y)),
        Function::Powd => parts(x.powd(y)),
        _ => truth(compare(function, x, y)),
    }
}

/// A comparison of two records; the same against the second's real part as a plain float.
fn compare<F: Part, R: Record<F>>(function: Function, x: R, y: R) -> bool {
    let re = y.re();
    let [records, plain] = match function {
        Function::Eq => [x == y, x == re],
        Function::Lt => [x < y, x < re],
        Function::Le => [x <= y, x <= re],
        Function::Gt => [x > y, x > re],
        Function::Ge => [x >= y, x >= re],
        _ => panic!("{function:?} of two records"),
    };
    assert_eq!(records, plain, "a comparison with a plain float differs");
    records
}

/// 1 where it holds, else 0.
fn truth(holds: bool) -> Vec<u64> {
    vec![u64::from(holds)]
}

fn parts<F: Part, R: Record<F>>(record: R) -> Vec<u64> {
    words(&record.parts())
}

/// The one answer of several forms of an operation.
fn agreed<F: Part, R: Record<F>, const N: usize>(forms: [R; N]) -> Vec<u64> {
    let [first, rest @ ..] = &forms.map(|form| parts(form))[..] else { panic!("no form") };
    assert!(rest.iter().all(|other| other == first), "forms of an operation differ");
    first.clone()
}

fn assigned<R: Copy>(mut x: R, assign: impl FnOnce(&mut R)) -> R {
    assign(&mut x);
    x
}

/// Document 01: at which arguments each outside function of a request is taken. `re` and `other`
/// are the real parts of the first and the second record.
pub fn arguments(
    function: Function,
    outside: Outside,
    (re, other): (f64, f64),
    argument: Argument,
) -> Vec<f64> {
    match (function, outside) {
        (Function::Powi, _) => vec![re, f64::from(argument.exponent) - 3.0],
        (Function::Powf, _) => vec![re, ((argument.float - 1.0) - 1.0) - 1.0],
        (Function::Log, Outside::Log) => vec![re, argument.float],
        (Function::Log, _) => vec![argument.float],
        (Function::Atan2, Outside::Atan) => vec![re * (1.0 / other)],
        (Function::Atan2, _) => vec![re, other],
        (Function::Powd, Outside::Exp) => vec![re.ln() * other],
        _ => vec![re],
    }
}

/// Where the original takes a short way that calls nothing outside.
pub fn short_way(function: Function, re: f64, argument: Argument) -> bool {
    match function {
        Function::Powi => (0..=2).contains(&argument.exponent),
        Function::Powf => [0.0, 1.0, 2.0].contains(&argument.float),
        Function::SphJ0 | Function::SphJ1 | Function::SphJ2 | Function::SphJ1Series => {
            re.abs() < f64::EPSILON
        }
        _ => false,
    }
}

/// The words of an argument list, for comparison.
pub fn argument_words(arguments: &[f64]) -> Vec<u64> {
    arguments.iter().map(|x| word(*x)).collect()
}
