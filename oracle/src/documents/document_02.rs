//! Document 02: what the wishes say of the Rust.
use super::{Row, cubic, dual, factored, flat, mixed, plain, row, said};
use crate::functions::sph_j1_series;
use crate::matrices::{Entry, jacobi, smallest};
use crate::matrix_requests::{Matrix, Style, matrix};
use crate::original::{Dual2, Dual3, DualNum, HyperDual};
use crate::random::Random;
use crate::record::Record;
use crate::words::{float, words};

pub(super) fn rows() -> Vec<Row> {
    [at_zero(), below_epsilon(), at_epsilon(), other_wishes()].concat()
}

/// Wish 4 at 0: the third derivative of sph_j1 by the Rust, and by the series rule.
fn at_zero() -> Vec<Row> {
    let (place, third) = ("02 wish 4", 1.0 / 3.0);
    let (x, y, negative) = (cubic(0.0), mixed(0.0), cubic(-0.0));
    let series = x / 3.0 - ((x * x) * x) / 30.0;
    vec![
        row(place, "Dual3 (0,1,0,0) sph_j1", &[0.0, third, 0.0, 0.0], &x.sph_j1().parts()),
        row(place, "the series rule's v3", &[-0.2], &[series.v3]),
        row(
            place,
            "Dual3 (0,1,0,0) by the series rule",
            &[0.0, third, 0.0, -0.2],
            &sph_j1_series(x).parts(),
        ),
        row(
            place,
            "HyperHyperDual (0;1,1,1;0,0,0;0) sph_j1",
            &[0.0, third, third, third, 0.0, 0.0, 0.0, 0.0],
            &y.sph_j1().parts(),
        ),
        row(
            place,
            "HyperHyperDual (0;1,1,1;0,0,0;0) by the series rule",
            &[0.0, third, third, third, 0.0, 0.0, 0.0, -0.2],
            &sph_j1_series(y).parts(),
        ),
        row(
            place,
            "Dual3 (-0,1,0,0): re of sph_j1 and by the series rule",
            &[-0.0, 0.0],
            &[negative.sph_j1().re, sph_j1_series(negative).re],
        ),
    ]
}

/// Wish 4 just below 2^-52, where the two rules differ still.
fn below_epsilon() -> Vec<Row> {
    let (place, third) = ("02 wish 4", 1.0 / 3.0);
    let below = f64::from_bits(f64::EPSILON.to_bits() - 1);
    let (value, fifth) = (below / 3.0, -(2.0 * below + 4.0 * below) / 30.0);
    vec![
        row(
            place,
            "Dual3 (3cafffffffffffff,1,0,0) sph_j1",
            &[value, third, 0.0, 0.0],
            &cubic(below).sph_j1().parts(),
        ),
        row(
            place,
            "Dual3 (3cafffffffffffff,1,0,0) by the series rule",
            &[value, third, fifth, -0.2],
            &sph_j1_series(cubic(below)).parts(),
        ),
        row(
            place,
            "HyperHyperDual (3cafffffffffffff;1,1,1;0,0,0;0) sph_j1",
            &[value, third, third, third, 0.0, 0.0, 0.0, 0.0],
            &mixed(below).sph_j1().parts(),
        ),
        row(
            place,
            "HyperHyperDual (3cafffffffffffff;1,1,1;0,0,0;0) by the series rule",
            &[value, third, third, third, fifth, fifth, fifth, -0.2],
            &sph_j1_series(mixed(below)).parts(),
        ),
    ]
}

/// Wish 4 at 2^-52, where the two rules are one; and a tie at which the cube's grouping shows, as it
/// does in `Dual3` at ties alone.
fn at_epsilon() -> Vec<Row> {
    let (place, edge) = ("02 wish 4", cubic(f64::EPSILON));
    let tie = Dual3::of(&[float(0x3caffffffffffffe), 1.0, -2f64.powi(51), -1.5]);
    let regrouped = tie / 3.0 - (tie * (tie * tie)) / 30.0;
    vec![
        row(
            place,
            "Dual3 (2^-52,1,0,0) by the series rule is sph_j1",
            &edge.sph_j1().parts(),
            &sph_j1_series(edge).parts(),
        ),
        row(
            place,
            "v3 of Dual3 (3caffffffffffffe,1,-2^51,-1.5) by the series rule, and by x·(x·x)",
            &[float(0xbfd999999999999b), float(0xbfd999999999999a)],
            &[sph_j1_series(tie).v3, regrouped.v3],
        ),
    ]
}

fn other_wishes() -> Vec<Row> {
    let big = 2f64.powi(53);
    let (s, o) = (Dual2::of(&[1.0, 1.0, -big]), Dual2::of(&[1.0, 1.0, big]));
    let diagonal = plain(&[3.0, 0.0, 0.0, 1.0]);
    let pivot = f64::from_bits(breaking_pivot());
    let broken = factored(2, &plain(&[pivot, 1.0, pivot, 2.0]));
    vec![
        said(
            "02 wish 10",
            "a diagonal matrix settles at limit 1, not at 0",
            [false, true],
            [0, 1].map(|limit| jacobi(2, &diagonal, limit).settled),
        ),
        row("02 wish 11", "v2 of s·o and of o·s", &[0.0, 2.0], &[(s * o).v2, (o * s).v2]),
        said("02 wish 12", "Dual2 and HyperDual differ on, of 10000", 0, widened_differs()),
        row(
            "02 wish 13",
            "a row equal to the pivot row: multiplier above 1",
            &[1.0 + f64::EPSILON],
            &[broken.entries[2].re],
        ),
        said(
            "02 wish 13",
            "multipliers above 1 for pivots to 2^1022, of 100000",
            0,
            multipliers_above_one(),
        ),
        said("02 wish 14", "smallest_ev is Jacobi's first, limit 200", true, smallest_is_first()),
        row(
            "02 wish 14",
            "smallest_ev of the 1 by 1 (2, 3)",
            &[2.0, 3.0, 1.0, 0.0],
            &flat(&smallest(1, &[dual(2.0, 3.0)])),
        ),
    ]
}

/// The least float above 2^1022 whose product with its reciprocal exceeds 1.
fn breaking_pivot() -> u64 {
    let start = 2f64.powi(1022).to_bits();
    let exceeds = |bits: &u64| f64::from_bits(*bits) * f64::from_bits(*bits).recip() > 1.0;
    (start..).find(exceeds).expect("there is one")
}

fn multipliers_above_one() -> usize {
    let mut random = Random::new(1, "multipliers");
    let exceeds = |_: &i32| {
        let pivot = random.scaled(-1022, 1021);
        (pivot * (1.0 / pivot)).abs() > 1.0
    };
    (0..100_000).filter(exceeds).count()
}

/// Products, quotients and chain rules of `Dual2` (re, v1, v2) beside `HyperDual` (re, v1, v1, v2).
fn widened_differs() -> usize {
    let mut random = Random::new(1, "widened");
    let mut draw = || [random.scaled(-3, 3), random.scaled(-3, 3), random.scaled(-3, 3)];
    let wide = |p: [f64; 3]| HyperDual::<f64>::of(&[p[0], p[1], p[1], p[2]]);
    (0..10_000)
        .filter(|_| {
            let (x, y) = (draw(), draw());
            let (narrow_x, narrow_y) = (Dual2::<f64>::of(&x), Dual2::<f64>::of(&y));
            let narrow = both(narrow_x, narrow_y);
            let widened = both(wide(x), wide(y));
            narrow.iter().zip(&widened).any(|(n, w)| words(&[n[0], n[1], n[1], n[2]]) != words(w))
        })
        .count()
}

fn both<R: Record<f64>>(x: R, y: R) -> Vec<Vec<f64>> {
    let all = [
        x * y,
        x / y,
        x + y,
        x - y,
        x.recip(),
        x.sqrt(),
        x.cbrt(),
        x.exp(),
        x.exp2(),
        x.exp_m1(),
        x.ln(),
        x.log(3.0),
        x.log2(),
        x.log10(),
        x.ln_1p(),
        x.sin(),
        x.cos(),
        x.tan(),
        x.asin(),
        x.acos(),
        x.atan(),
        x.atan2(y),
        x.sinh(),
        x.cosh(),
        x.tanh(),
        x.asinh(),
        x.acosh(),
        x.atanh(),
        x.sph_j0(),
        x.sph_j1(),
        x.sph_j2(),
        x.powi(5),
        x.powf(2.5),
    ];
    all.iter().map(|record| record.parts()).collect()
}

fn smallest_is_first() -> bool {
    let mut random = Random::new(1, "smallest");
    (3..9).all(|n| {
        let Matrix { entries, .. } = matrix(&mut random, n, Style::Moderate);
        let eigen = jacobi(n, &entries, 200);
        let first: Vec<Entry> = (0..n).map(|r| eigen.vectors[r * n]).collect();
        words(&flat(&[vec![eigen.values[0]], first].concat()))
            == words(&flat(&smallest(n, &entries)))
    })
}
