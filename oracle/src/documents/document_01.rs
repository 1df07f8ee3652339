//! Document 01.
use super::{INF, NAN, Row, dual, factored, flat, plain, row, said, with};
use crate::dualrun;
use crate::matrices::{Entry, jacobi, lu, original_jacobi, solve_plain};
use crate::original::{Dual, Dual2, Dual3, DualNum, DualNumFloat, HyperDual, HyperHyperDual};
use crate::random::Random;
use crate::record::Record;
use crate::supplied::{Outside, Supplied};
use crate::words::{float, words};
use num_traits::{FloatConst, Signed};
use std::hint::black_box;
use std::panic;

pub(super) fn rows() -> Vec<Row> {
    let records = [constants(), operators(), powers(), spherical()].concat();
    [records, roots(), lu_rows(), jacobi_rows(), slips(), source_lines()].concat()
}

const RECORDS: &str = "01 records";

fn constants() -> Vec<Row> {
    let orders = [
        Dual::<f64>::NDERIV,
        Dual2::<f64>::NDERIV,
        Dual3::<f64>::NDERIV,
        HyperDual::<f64>::NDERIV,
        HyperHyperDual::<f64>::NDERIV,
    ];
    vec![
        row(RECORDS, "ln 2", &[0.6931471805599453], &[black_box(2f64).ln()]),
        row(RECORDS, "ln 10", &[2.302585092994046], &[f64::LN_10()]),
        row(RECORDS, "the constant third", &[1.0 / 3.0], &[<f64 as DualNumFloat>::THIRD]),
        said(RECORDS, "NDERIV of the five", [1, 2, 3, 2, 3], orders),
    ]
}

/// The items marked (m), and the quotient.
fn operators() -> Vec<Row> {
    let x = dual(2.0, 3.0);
    let by_float = flat(&[x * 3.0, x / 3.0, x + 3.0, x - 3.0]);
    let wanted = [6.0, 9.0, 2.0 / 3.0, 1.0, 5.0, 3.0, -1.0, 3.0];
    let sum: Entry = [dual(-0.0, -0.0)].into_iter().sum();
    let product: Entry = [dual(INF, 1.0)].into_iter().product();
    let quotient = dual(49.0, 0.0) / dual(49.0, 0.0);
    vec![
        said(RECORDS, "-0 is negative", true, dual(-0.0, 1.0).is_negative()),
        row(RECORDS, "abs of (-0, 1)", &[0.0, -1.0], &dual(-0.0, 1.0).abs().parts()),
        row(RECORDS, "abs of (0, 1)", &[0.0, 1.0], &dual(0.0, 1.0).abs().parts()),
        row(RECORDS, "Sum from zero: of (-0, -0)", &[0.0, 0.0], &sum.parts()),
        row(RECORDS, "Product from one: of (inf, 1)", &[INF, NAN], &product.parts()),
        row(RECORDS, "(2, 3) times, over, plus, minus the float 3", &wanted, &by_float),
        said(RECORDS, "comparison by real parts only", true, dual(1.0, 5.0) == dual(1.0, 7.0)),
        row("P2", "(49, 0)/(49, 0)", &[float(0x3fefffffffffffff)], &[quotient.re]),
        row("P11", "sqrt of (0, 1)", &[0.0, NAN], &dual(0.0, 1.0).sqrt().parts()),
        quotient_row(),
    ]
}

fn powers() -> Vec<Row> {
    let powf = |n: f64| {
        with::<Dual<Supplied>>(&[(Outside::Powf, NAN)], &[5.0, 1.0], |x| x.powf(Supplied(n)))
    };
    let cube =
        with::<Dual3<Supplied>>(&[(Outside::Powi, 1.0)], &[5.0, 1.0, 0.0, 0.0], |x| x.powi(3));
    let nan = dual(NAN, 1.0);
    let largest = dual(1.0, 1.0).powi(1024);
    vec![
        row(RECORDS, "NaN powi 0", &[1.0, 0.0], &nan.powi(0).parts()),
        row(RECORDS, "(NaN, 1) powi 1", &[NAN, 1.0], &nan.powi(1).parts()),
        row(RECORDS, "(NaN, 1) powi 2 is the square", &(nan * nan).parts(), &nan.powi(2).parts()),
        row(RECORDS, "powf 0, whatever is supplied", &[1.0, 0.0], &powf(0.0)),
        row(RECORDS, "powf 1, whatever is supplied", &[5.0, 1.0], &powf(1.0)),
        row(RECORDS, "powf 2, whatever is supplied", &[25.0, 10.0], &powf(2.0)),
        row(RECORDS, "powf 2 - 2^-52 is not the square", &[NAN, NAN], &powf(next_below(2.0))),
        row("P8", "(5, 1) powi 2", &[25.0, 10.0], &dual(5.0, 1.0).powi(2).parts()),
        row("P8", "Dual3 (5,1,0,0) powi 3 with 1 supplied", &[125.0, 75.0, 30.0, 6.0], &cube),
        row("P9", "(1, 1) powi 1024", &[1.0, 1024.0], &largest.parts()),
        said(
            "P9",
            "exp·(exp - 1)·(exp - 2) fits i32 at ±1024",
            [true, true],
            [1024, -1024].map(fits),
        ),
    ]
}

/// sph_j on both sides of 2^-52: which side reads the sine.
fn spherical() -> Vec<Row> {
    let below = next_below(f64::EPSILON);
    let x = dual(below, 1.0);
    let nan_sine = [(Outside::Sin, NAN), (Outside::Cos, NAN)];
    let j2 = |at: f64| with::<Dual<Supplied>>(&nan_sine, &[at, 1.0], |x| x.sph_j2());
    let wanted = [below * below / 15.0, (below + below) / 15.0];
    let slope = -((below + below) / 6.0);
    vec![
        row(RECORDS, "sph_j0 just below 2^-52 is 1 - x·x/6", &[1.0, slope], &x.sph_j0().parts()),
        row(RECORDS, "sph_j1 there is x/3", &[below / 3.0, 1.0 / 3.0], &x.sph_j1().parts()),
        row(RECORDS, "sph_j2 there is x·x/15 and reads no sine", &wanted, &j2(below)),
        row(RECORDS, "sph_j2 at 2^-52 reads the sine", &[NAN, NAN], &j2(f64::EPSILON)),
    ]
}

fn next_below(x: f64) -> f64 {
    float(x.to_bits() - 1)
}

/// powi's last factor is exact in i32.
fn fits(exp: i32) -> bool {
    exp.checked_mul(exp - 1).and_then(|square| square.checked_mul(exp - 2)).is_some()
}

/// Document 01's quotient of `Dual`, on random pairs.
fn quotient_row() -> Row {
    let mut random = Random::new(1, "quotient");
    let mut pair = || dual(random.scaled(-20, 20), random.scaled(-20, 20));
    let same = (0..10_000).filter(|_| {
        let (x, y) = (pair(), pair());
        let inv = 1.0 / y.re;
        let wanted = [x.re * inv, ((x.eps * y.re - y.eps * x.re) * inv) * inv];
        words(&wanted) == words(&(x / y).parts())
    });
    said("01 records", "quotients by the rule, of 10000", 10_000, same.count())
}

fn roots() -> Vec<Row> {
    let tiny = f64::from_bits(1);
    vec![
        row("P10", "root of 2^-1074", &[2f64.powi(-537)], &[tiny.sqrt()]),
        row("P10", "root of -0", &[-0.0], &[(-0.0f64).sqrt()]),
        row(
            "01 root",
            "root of 0, infinity, -1, NaN",
            &[0.0, INF, NAN, NAN],
            &[0.0, INF, -1.0, NAN].map(f64::sqrt),
        ),
    ]
}

fn lu_rows() -> Vec<Row> {
    let p1 = factored(2, &[dual(0.0, 1.0), dual(2.0, 0.0), dual(1.0, 0.0), dual(0.0, 0.0)]);
    let p3 = factored(2, &plain(&[49.0; 4]));
    let none = factored(0, &[]);
    let identity: Vec<Entry> =
        (0..1024).map(|k| dual(if k / 32 == k % 32 { 1.0 } else { 0.0 }, 0.0)).collect();
    vec![
        said("P1", "order and swaps", (vec![1, 0], 1), (p1.order.clone(), p1.swaps)),
        row("P1", "factors", &[1.0, 0.0, 0.0, 0.0, 0.0, 1.0, 2.0, 0.0], &flat(&p1.entries)),
        said("P1", "the whole listing", P1_OUTPUT.to_string(), dualrun::output(P1_INPUT)),
        said("P3", "order and swaps", (vec![0, 1], 0), (p3.order.clone(), p3.swaps)),
        row("P3", "last pivot", &[2f64.powi(-47)], &[p3.entries[3].re]),
        said(
            "P4",
            "[[1,2],[1,2]] singular at",
            Some(1),
            lu(2, &plain(&[1.0, 2.0, 1.0, 2.0])).err(),
        ),
        said("P5", "(0, 1) singular at", Some(0), lu(1, &[dual(0.0, 1.0)]).err()),
        said("P6", "n = 0: swaps", 0, none.swaps),
        row("P6", "n = 0: determinant", &[1.0, 0.0], &none.determinant().parts()),
        said("P6", "n = 0: the source's Jacobi panics", true, empty_jacobi_panics()),
        said("P7", "the identity at n = 32 passes", 0, factored(32, &identity).swaps),
    ]
}

const P1_INPUT: &str = "lu 2
0000000000000000 3ff0000000000000
4000000000000000 0000000000000000
3ff0000000000000 0000000000000000
0000000000000000 0000000000000000
";

const P1_OUTPUT: &str = "0 1
1 0
3ff0000000000000 0000000000000000
0000000000000000 0000000000000000
0000000000000000 3ff0000000000000
4000000000000000 0000000000000000
";

fn jacobi_rows() -> Vec<Row> {
    let run = |real: &[f64], limit| jacobi(2, &plain(real), limit);
    let p12 = run(&[3.0, 0.0, 0.0, 1.0], 200);
    let read = run(&[2.0, 1.0, 99.0, 2.0], 200);
    let faint = 2f64.powi(-600);
    let vanishing = run(&[1.0, faint, faint, 2.0], 200);
    let real = |entries: &[Entry]| entries.iter().map(|e| e.re).collect::<Vec<f64>>();
    vec![
        said("P12", "sweeps", 0, p12.sweeps),
        row("P12", "eigenvalues", &[1.0, 3.0], &real(&p12.values)),
        row("P12", "columns", &[0.0, 1.0, 1.0, 0.0], &real(&p12.vectors)),
        said("01 values", "[[2,1],[99,2]]: sweeps", 1, read.sweeps),
        row("01 values", "[[2,1],[99,2]]: eigenvalues", &[1.0, 3.0], &real(&read.values)),
        said("01 values", "[[1,2^-600],[2^-600,2]]: sweeps", 0, vanishing.sweeps),
        row(
            "01 values",
            "[[1,2^-600],[2^-600,2]]: eigenvalues",
            &[1.0, 2.0],
            &real(&vanishing.values),
        ),
        said(
            "01 Jacobi",
            "zeroed only from sweep 5: sweeps and settled at limits 5, 6, 7",
            [(5, false), (6, false), (6, true)],
            [5, 6, 7].map(faint_run),
        ),
    ]
}

/// The square of 2^600 overflows, so that nothing is rotated; ten times 2^600 vanishes beside the
/// diagonal, so that it is zeroed as soon as that is allowed.
fn faint_run(limit: usize) -> (usize, bool) {
    let (large, faint) = (2f64.powi(1000), 2f64.powi(600));
    let eigen = jacobi(2, &plain(&[large, faint, 0.0, large]), limit);
    assert_eq!(eigen.rotations, 0);
    (eigen.sweeps, eigen.settled)
}

/// `n - 1` underflows in the source.
fn empty_jacobi_panics() -> bool {
    let hook = panic::take_hook();
    panic::set_hook(Box::new(|_| {}));
    let result = panic::catch_unwind(|| original_jacobi(0, &[], 1));
    panic::set_hook(hook);
    result.is_err()
}

/// On how many of 10,000 random pairs the quotient is the product with the reciprocal.
fn by_recip<R: Record<f64>>(parts: usize) -> usize {
    let mut random = Random::new(1, "slips");
    let mut draw = || {
        let floats: Vec<f64> = (0..parts).map(|_| random.scaled(-3, 3)).collect();
        R::of(&floats)
    };
    (0..10_000)
        .filter(|_| {
            let (x, y) = (draw(), draw());
            words(&(x / y).parts()) == words(&(x * y.recip()).parts())
        })
        .count()
}

fn slips() -> Vec<Row> {
    let p = "01 slips";
    let all = 10_000;
    let some = |same: usize| same < all;
    let ties = factored(2, &plain(&[1.0, 0.0, -1.0, 1.0]));
    let single = solve_plain(1, &[49.0], &[49.0]);
    let double = factored(1, &plain(&[49.0])).solve(&plain(&[49.0]))[0].re;
    vec![
        said(p, "Dual: x/y and x·recip(y) differ somewhere", true, some(by_recip::<Dual<f64>>(2))),
        said(p, "Dual2: they differ somewhere", true, some(by_recip::<Dual2<f64>>(3))),
        said(p, "HyperDual: they differ somewhere", true, some(by_recip::<HyperDual<f64>>(4))),
        said("01 records", "Dual3: quotients by recip, of 10000", all, by_recip::<Dual3<f64>>(4)),
        said("01 records", "HyperHyperDual: the same", all, by_recip::<HyperHyperDual<f64>>(8)),
        said(p, "a tie keeps row 0", vec![0, 1], ties.order.clone()),
        row(
            p,
            "49 x = 49 over f64 and over Dual",
            &[1.0, float(0x3fefffffffffffff)],
            &[single[0], double],
        ),
    ]
}

/// Lines of the sources, as document 01 counts them.
#[rustfmt::skip]
fn source_lines() -> Vec<Row> {
    let lines = |text: &str| text.split('\n').count();
    let wanted = [104, 136, 118, 141, 197, 404, 291];
    let got = [
        lines(include_str!("../../original/datatypes/dual.rs")),
        lines(include_str!("../../original/datatypes/dual2.rs")),
        lines(include_str!("../../original/datatypes/dual3.rs")),
        lines(include_str!("../../original/datatypes/hyperdual.rs")),
        lines(include_str!("../../original/datatypes/hyperhyperdual.rs")),
        lines(include_str!("../../original/impl_derivatives.rs")),
        lines(include_str!("../../original/linalg.rs")),
    ];
    vec![said("01 modules", "lines of the seven sources, the last end counted", wanted, got)]
}
