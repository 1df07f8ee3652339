//! Products and quotients of single records, by the operators of the port's crate.
use crate::timing::{Times, in_turn};
use compare::random::Random;
use compare::record::{
    Dual2Kind, Dual3Kind, DualKind, HyperDualKind, HyperHyperDualKind, Kind, Record,
};
use compare::words::words;
use evindrast::{Dual2_64, Dual3_64, Dual64, DualNum, HyperDual64, HyperHyperDual64};
use std::hint::black_box;

/// Pairs of each record.
const PAIRS: usize = 1024;

/// A record's pairs, once both sides gave the same words for them.
pub struct Pairs {
    pub name: &'static str,
    pub compared: usize,
    pub product: Box<dyn Fn() -> Times>,
    pub quotient: Box<dyn Fn() -> Times>,
}

pub fn all(random: &mut Random) -> Vec<Pairs> {
    vec![
        pairs::<DualKind, Dual64>(random),
        pairs::<Dual2Kind, Dual2_64>(random),
        pairs::<Dual3Kind, Dual3_64>(random),
        pairs::<HyperDualKind, HyperDual64>(random),
        pairs::<HyperHyperDualKind, HyperHyperDual64>(random),
    ]
}

fn pairs<K: Kind, D: DualNum>(random: &mut Random) -> Pairs {
    let mut parts = || -> Vec<f64> { (0..K::PARTS).map(|_| random.unit()).collect() };
    let parts: Vec<[Vec<f64>; 2]> = (0..PAIRS).map(|_| [parts(), parts()]).collect();
    let record = |parts: &Vec<f64>| D::from_parts(parts).expect("as many floats");
    let port: Vec<[D; 2]> = parts.iter().map(|pair| pair.each_ref().map(record)).collect();
    let rust: Vec<[K::Record<f64>; 2]> =
        parts.iter().map(|pair| pair.each_ref().map(|parts| Record::<f64>::of(parts))).collect();
    for (mine, theirs) in port.iter().zip(&rust) {
        let ([a, b], [x, y]) = (*mine, *theirs);
        assert_eq!(words((a * b).parts()), words(&(x * y).parts()), "product, {}", K::NAME);
        assert_eq!(words((a / b).parts()), words(&(x / y).parts()), "quotient, {}", K::NAME);
    }
    let compared = 2 * PAIRS * K::PARTS;
    let product = timed(port.clone(), rust.clone(), times, times);
    let quotient = timed(port, rust, over, over);
    Pairs { name: K::NAME, compared, product: Box::new(product), quotient: Box::new(quotient) }
}

/// An operation on both sides' pairs, to be timed.
fn timed<P: Copy, R: Copy>(
    port: Vec<[P; 2]>,
    rust: Vec<[R; 2]>,
    mine: impl Fn([P; 2]) -> P + Copy,
    theirs: impl Fn([R; 2]) -> R + Copy,
) -> impl Fn() -> Times {
    move || {
        in_turn(
            |i| port[i % PAIRS],
            |pair| _ = black_box(mine(black_box(pair))),
            |i| rust[i % PAIRS],
            |pair| _ = black_box(theirs(black_box(pair))),
        )
    }
}

#[inline]
fn times<R: std::ops::Mul<Output = R>>([x, y]: [R; 2]) -> R {
    x * y
}

#[inline]
fn over<R: std::ops::Div<Output = R>>([x, y]: [R; 2]) -> R {
    x / y
}
