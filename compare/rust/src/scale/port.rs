//! The port's answers, by the methods and operators of its crate.
// the references are forms that are compared
#![allow(clippy::op_ref)]
use crate::counts::Answer;
use compare::functions::{Argument, Description, Extra, Function, Shape};
use evindrast::{
    Dual2_64, Dual3_64, Dual64, DualNum, HyperDual64, HyperHyperDual64, Refusal, supplied,
};
use std::cmp::Ordering::{Equal, Greater, Less};

/// A record of the crate, with the functions that not every record has, by their numbers.
pub trait Port: DualNum {
    fn particular(self, function: Function) -> Self;
}

macro_rules! port {
    ($record:ident, [$($function:ident $name:ident),*]) => {
        impl Port for $record {
            fn particular(self, function: Function) -> Self {
                match function {
                    $(Function::$function => self.$name(),)*
                    _ => panic!("{} has no {function:?}", stringify!($record)),
                }
            }
        }
    };
}

port!(Dual64, [Derivative derivative]);
port!(Dual2_64, [Derivative derivative]);
port!(Dual3_64, [Derivative derivative, SphJ1Series sph_j1_series]);
port!(HyperDual64, [Derivative1 derivative1, Derivative2 derivative2]);
port!(
    HyperHyperDual64,
    [
        Derivative1 derivative1, Derivative2 derivative2, Derivative3 derivative3,
        SphJ1Series sph_j1_series
    ]
);

/// With std's own outside values. Where the crate has several forms of an operation all are called
/// and must agree.
pub fn own<D: Port>(function: Function, records: &[D], argument: Argument) -> Answer {
    let k = argument.float;
    Ok(match (function, records) {
        (Function::Zero, _) => agreed([D::zero(), D::ZERO, library(function, records, &[])]),
        (Function::One, _) => agreed([D::one(), D::ONE, library(function, records, &[])]),
        (Function::Nderiv, _) => vec![D::NDERIV as u64],
        (Function::FromRe, _) => {
            agreed([D::from_re(k), D::from(k), library(function, records, &[k])])
        }
        (Function::Powi, [x]) => {
            return x.try_powi(argument.exponent).map(parts).map_err(Refusal::number);
        }
        (_, [x]) => of_one(function, *x, k),
        (_, [x, y]) => of_two(function, *x, *y),
        (Function::MulAdd, [x, y, z]) => parts(x.mul_add(*y, *z)),
        _ => panic!("{function:?} of {} records", records.len()),
    })
}

fn of_one<D: Port>(function: Function, x: D, k: f64) -> Vec<u64> {
    match function {
        Function::Neg => parts(-x),
        Function::MulFloat => agreed([x * k, assigned(x, |a| *a *= k)]),
        Function::DivFloat => agreed([x / k, assigned(x, |a| *a /= k)]),
        Function::AddFloat => agreed([x + k, assigned(x, |a| *a += k)]),
        Function::SubFloat => agreed([x - k, assigned(x, |a| *a -= k)]),
        Function::Scale => parts(x.scale(&k)),
        Function::IsNegative => truth(x.is_negative()),
        Function::IsPositive => truth(x.is_positive()),
        Function::IsZero => truth(x.is_zero()),
        Function::IsOne => truth(x.is_one()),
        Function::Abs => parts(x.abs()),
        Function::Signum => parts(x.signum()),
        Function::Recip => parts(x.recip()),
        Function::Inv => parts(x.inv()),
        Function::Sqrt => parts(x.sqrt()),
        Function::Powf => parts(x.powf(k)),
        Function::Log => parts(x.log(k)),
        Function::SinCos => {
            let (sin, cos) = x.sin_cos();
            [parts(sin), parts(cos)].concat()
        }
        Function::Derivative
        | Function::Derivative1
        | Function::Derivative2
        | Function::Derivative3 => agreed([x.particular(function), library(function, &[x], &[])]),
        Function::SphJ1Series => parts(x.particular(function)),
        _ => parts(elementary(function, x)),
    }
}

/// The functions that take nothing but the record.
fn elementary<D: Port>(function: Function, x: D) -> D {
    match function {
        Function::Cbrt => x.cbrt(),
        Function::Exp => x.exp(),
        Function::Exp2 => x.exp2(),
        Function::ExpM1 => x.exp_m1(),
        Function::Ln => x.ln(),
        Function::Log2 => x.log2(),
        Function::Log10 => x.log10(),
        Function::Ln1p => x.ln_1p(),
        Function::Sin => x.sin(),
        Function::Cos => x.cos(),
        Function::Tan => x.tan(),
        Function::Asin => x.asin(),
        Function::Acos => x.acos(),
        Function::Atan => x.atan(),
        Function::Sinh => x.sinh(),
        Function::Cosh => x.cosh(),
        Function::Tanh => x.tanh(),
        Function::Asinh => x.asinh(),
        Function::Acosh => x.acosh(),
        Function::Atanh => x.atanh(),
        Function::SphJ0 => x.sph_j0(),
        Function::SphJ1 => x.sph_j1(),
        Function::SphJ2 => x.sph_j2(),
        _ => panic!("{function:?} of one record"),
    }
}

fn of_two<D: Port>(function: Function, x: D, y: D) -> Vec<u64> {
    let by_number = || library(function, &[x, y], &[]);
    match function {
        Function::Add => agreed([x + y, x + &y, assigned(x, |a| *a += y), by_number()]),
        Function::Sub => agreed([x - y, x - &y, assigned(x, |a| *a -= y), by_number()]),
        Function::Mul => agreed([x * y, x * &y, assigned(x, |a| *a *= y), by_number()]),
        Function::Div => agreed([x / y, x / &y, assigned(x, |a| *a /= y), by_number()]),
        Function::AbsSub => parts(x.abs_sub(&y)),
        Function::Atan2 => parts(x.atan2(y)),
        Function::Powd => parts(x.powd(y)),
        _ => truth(compared(function, x, y)),
    }
}

/// A comparison of two records, by its method and by `partial_cmp`; the same against the second's
/// real part as a plain float.
fn compared<D: Port>(function: Function, x: D, y: D) -> bool {
    let re = y.re();
    let (wanted, records, plain) = match function {
        Function::Eq => (&[Equal][..], x == y, x == re),
        Function::Lt => (&[Less][..], x < y, x < re),
        Function::Le => (&[Less, Equal][..], x <= y, x <= re),
        Function::Gt => (&[Greater][..], x > y, x > re),
        Function::Ge => (&[Greater, Equal][..], x >= y, x >= re),
        _ => panic!("{function:?} of two records"),
    };
    let ordered = x.partial_cmp(&y).is_some_and(|ordering| wanted.contains(&ordering));
    assert!(records == plain && records == ordered, "forms of a comparison differ");
    records
}

/// 1 where it holds, else 0.
fn truth(holds: bool) -> Vec<u64> {
    vec![u64::from(holds)]
}

/// With these outside values, in the order of the function's extras.
pub fn with<D: Port>(
    description: &Description,
    records: &[D],
    argument: Argument,
    values: &[f64],
) -> Answer {
    let function = numbered(description.function);
    let plain = description.extras.contains(&Extra::Float).then_some(argument.float);
    let floats: Vec<f64> = plain.iter().chain(values).copied().collect();
    let answer = match description.shape {
        Shape::Pair => supplied::pair(function, records, &floats)
            .map(|(first, second)| [parts(first), parts(second)].concat()),
        _ => supplied::record(function, records, argument.exponent, &floats).map(parts),
    };
    answer.map_err(Refusal::number)
}

/// A function that takes no outside value.
fn library<D: Port>(function: Function, records: &[D], floats: &[f64]) -> D {
    supplied::record(numbered(function), records, 0, floats).expect("these lengths are wanted")
}

/// The crate's name for the oracle's function: they have the same numbers.
fn numbered(function: Function) -> evindrast::Function {
    let same = |other: &&evindrast::Function| **other as u32 == function as u32;
    *evindrast::Function::ALL.iter().find(same).expect("the port has this function")
}

/// The bits as they are: the port promises one NaN, 7ff8000000000000.
fn parts<D: Port>(record: D) -> Vec<u64> {
    record.parts().iter().map(|x| x.to_bits()).collect()
}

/// The one answer of several forms of an operation.
fn agreed<D: Port, const N: usize>(forms: [D; N]) -> Vec<u64> {
    let [first, rest @ ..] = &forms.map(parts)[..] else { panic!("no form") };
    assert!(rest.iter().all(|other| other == first), "forms of an operation differ");
    first.clone()
}

fn assigned<D: Copy>(mut x: D, assign: impl FnOnce(&mut D)) -> D {
    assign(&mut x);
    x
}
