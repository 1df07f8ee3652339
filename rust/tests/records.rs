//! The forms of each operation agree, and the functions are themselves.
// the references and the comparisons with a NaN are what is tested
#![allow(clippy::op_ref, clippy::eq_op, clippy::neg_cmp_op_on_partial_ord, clippy::nonminimal_bool)]
use evindrast::{
    exports, supplied, Dual2_64, Dual3_64, Dual64, DualNum, Function, HyperDual64, HyperHyperDual64,
};
use std::cmp::Ordering;

/// All fields, as Debug writes them: floats that differ in a bit are written differently.
fn fields<D: DualNum>(x: D) -> String {
    format!("{x:?}")
}

macro_rules! each_record {
    ($($name:ident),*) => {$(
        #[test]
        fn $name() {
            super::$name(Dual64::new(0.7, -1.5), Dual64::new(-2.25, 3.0));
            super::$name(Dual2_64::new(0.7, -1.5, 0.1), Dual2_64::new(-2.25, 3.0, 7.0));
            super::$name(Dual3_64::new(0.7, -1.5, 0.1, 4.0), Dual3_64::new(-2.25, 3.0, 7.0, 0.3));
            super::$name(
                HyperDual64::new(0.7, -1.5, 0.1, 4.0),
                HyperDual64::new(-2.25, 3.0, 7.0, 0.3),
            );
            super::$name(
                HyperHyperDual64::new(0.7, -1.5, 0.1, 4.0, 0.6, -0.9, 11.0, 0.2),
                HyperHyperDual64::new(-2.25, 3.0, 7.0, 0.3, -0.4, 8.0, 0.5, 1.25),
            );
        }
    )*};
}

mod each {
    use super::*;
    each_record!(
        forms_agree,
        operators_are_their_numbers,
        other_lengths_are_refused,
        comparisons_read_real_parts,
        real_parts_are_f64s,
        runs_are_folds
    );
}

fn assigned<D: DualNum>(mut x: D, assign: impl Fn(&mut D)) -> String {
    assign(&mut x);
    fields(x)
}

fn forms_agree<D: DualNum>(x: D, y: D) {
    assert_eq!(fields(x + y), fields(x + &y));
    assert_eq!(fields(x - y), fields(x - &y));
    assert_eq!(fields(x * y), fields(x * &y));
    assert_eq!(fields(x / y), fields(x / &y));
    assert_eq!(fields(x + y), assigned(x, |x| *x += y));
    assert_eq!(fields(x - y), assigned(x, |x| *x -= y));
    assert_eq!(fields(x * y), assigned(x, |x| *x *= y));
    assert_eq!(fields(x / y), assigned(x, |x| *x /= y));
    assert_eq!(fields(x + 3.0), assigned(x, |x| *x += 3.0));
    assert_eq!(fields(x - 3.0), assigned(x, |x| *x -= 3.0));
    assert_eq!(fields(x * 3.0), assigned(x, |x| *x *= 3.0));
    assert_eq!(fields(x / 3.0), assigned(x, |x| *x /= 3.0));
    assert_eq!(fields(x * 3.0), fields(x.scale(&3.0)));
    assert_eq!(fields(-(-x)), fields(x));
    assert_eq!(fields(x.recip()), fields(x.inv()));
    assert_eq!(fields(x.mul_add(y, x)), fields(x * y + x));
    assert_eq!(fields(x.powi(2)), fields(x * x));
    assert_eq!(fields(x.powf(2.0)), fields(x * x));
    assert_eq!(fields(x.powi(0)), fields(D::one()));
    assert_eq!(fields(x.powd(y)), fields((x.ln() * y).exp()));
    assert_eq!(fields(x.tan()), fields(x.sin() / x.cos()));
    assert_eq!(fields(x.tanh()), fields(x.sinh() / x.cosh()));
    let (sine, cosine) = x.sin_cos();
    assert_eq!((fields(sine), fields(cosine)), (fields(x.sin()), fields(x.cos())));
    assert_eq!(fields(x.abs_sub(&y)), fields(x - y));
    assert_eq!(fields(y.abs_sub(&x)), fields(D::zero()));
    assert_eq!((fields(y.abs()), fields(x.abs())), (fields(-y), fields(x)));
    assert_eq!((fields(y.signum()), fields(x.signum())), (fields(-D::one()), fields(D::one())));
    assert_eq!(fields(D::from(0.25)), fields(D::from_re(0.25)));
}

fn operators_are_their_numbers<D: DualNum>(x: D, y: D) {
    let by_number = |function| fields(supplied::record(function, &[x, y], 0, &[]).unwrap());
    assert_eq!(fields(x + y), by_number(Function::Add));
    assert_eq!(fields(x - y), by_number(Function::Sub));
    assert_eq!(fields(x * y), by_number(Function::Mul));
    assert_eq!(fields(x / y), by_number(Function::Div));
    assert_eq!((x / D::ZERO * D::ZERO).re().to_bits(), 0x7ff8000000000000);
}

fn other_lengths_are_refused<D: DualNum>(x: D, y: D) {
    let two = [x.parts(), y.parts()].concat();
    for operator in [exports::add, exports::sub, exports::mul, exports::div] {
        for (kind, records, out) in [
            (D::KIND as u32, two.len() - 1, D::PARTS),
            (D::KIND as u32, D::PARTS, D::PARTS),
            (D::KIND as u32, two.len(), D::PARTS - 1),
            (D::KIND as u32, two.len(), two.len()),
            (0, two.len(), D::PARTS),
            (6, two.len(), D::PARTS),
        ] {
            let mut out = vec![-7.25; out];
            assert_eq!(operator(kind, &two[..records], &mut out), 2);
            assert!(out.iter().all(|x| *x == -7.25), "nothing is written");
        }
    }
}

fn comparisons_read_real_parts<D: DualNum>(x: D, y: D) {
    assert!(y < x && y <= x && x > y && x >= y && x != y);
    assert!(x == D::from_re(x.re()) && x == x.re() && y < x.re());
    assert_eq!(x.partial_cmp(&y), Some(Ordering::Greater));
    assert_eq!(x.partial_cmp(&x.re()), Some(Ordering::Equal));
    let nan = D::from_re(f64::NAN);
    assert_eq!(nan.partial_cmp(&nan), None);
    assert!(nan != nan && !(nan < x) && !(nan >= x));
    assert!(y.is_negative() && !y.is_positive() && x.is_positive() && !x.is_negative());
    assert!((x * -0.0).is_negative() && (x * -0.0).is_zero() && !x.is_zero());
    assert!(nan.is_positive() && (x / x.re()).is_one() && !x.is_one());
}

fn real_parts_are_f64s<D: DualNum>(x: D, y: D) {
    let (a, b) = (x.re(), y.re());
    assert_eq!((x + y).re(), a + b);
    assert_eq!((x / y).re(), a * (1.0 / b));
    let functions: [(D, f64); 22] = [
        (x.sqrt(), a.sqrt()),
        (x.cbrt(), a.cbrt()),
        (x.exp(), a.exp()),
        (x.exp2(), a.exp2()),
        (x.exp_m1(), a.exp_m1()),
        (x.ln(), a.ln()),
        (x.log(3.0), a.log(3.0)),
        (x.log2(), a.log2()),
        (x.log10(), a.log10()),
        (x.ln_1p(), a.ln_1p()),
        (x.sin(), a.sin()),
        (x.cos(), a.cos()),
        (x.asin(), a.asin()),
        (x.acos(), a.acos()),
        (x.atan(), a.atan()),
        (x.atan2(y), a.atan2(b)),
        (x.sinh(), a.sinh()),
        (x.cosh(), a.cosh()),
        (x.asinh(), a.asinh()),
        (y.abs().acosh(), b.abs().acosh()),
        (x.atanh(), a.atanh()),
        (x.sph_j0(), a.sin() * (1.0 / a)),
    ];
    for (place, (record, float)) in functions.iter().enumerate() {
        assert_eq!(record.re().to_bits(), float.to_bits(), "function {place}");
    }
}

fn runs_are_folds<D: DualNum>(x: D, y: D) {
    let run = [x, y, y, x, x];
    let sum = run.iter().fold(D::zero(), |sum, x| sum + x);
    let product = run.iter().fold(D::one(), |product, x| product * x);
    assert_eq!(fields(run.iter().sum::<D>()), fields(sum));
    assert_eq!(fields(run.iter().product::<D>()), fields(product));
    assert_eq!(fields(run.iter().copied().sum::<D>()), fields(sum));
    assert_eq!(fields(run.iter().copied().product::<D>()), fields(product));
    assert_eq!(fields([-D::zero()].iter().sum::<D>()), fields(D::zero()));
    assert_eq!(fields([x; 0].iter().product::<D>()), fields(D::one()));
}

#[test]
fn references_are_operands_too() {
    let (x, y) = (Dual64::new(2.0, 1.0), Dual64::new(4.0, 3.0));
    let all = [&x + &y, &x + y, x + &y, x + y];
    assert!(all.iter().all(|sum| (sum.re, sum.eps) == (6.0, 4.0)));
    assert_eq!((-&x).eps, -1.0);
}

#[test]
fn derivatives_set_their_part() {
    let x = HyperHyperDual64::from_re(2.0);
    assert_eq!(x.derivative1().eps1 + x.derivative2().eps2 + x.derivative3().eps3, 3.0);
    assert_eq!(x.derivative3().eps1, 0.0);
    assert_eq!(Dual2_64::from_re(2.0).derivative().v1, 1.0);
    let orders = [Dual64::NDERIV, Dual2_64::NDERIV, Dual3_64::NDERIV];
    assert_eq!(orders, [1, 2, 3]);
    assert_eq!((HyperDual64::NDERIV, HyperHyperDual64::NDERIV), (2, 3));
}
