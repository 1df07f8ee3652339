//! sph_j1_series at real parts below 2^-52 of every magnitude, with derivative parts at which its
//! cube shows; and in how many of these cases each of some wrong rules would show.
use crate::counts::{Counts, hex};
use crate::port::{self, Port};
use crate::records::record;
use compare::functions::{Argument, Function, evaluate, sph_j1_series};
use compare::random::Random;
use compare::record::{Dual3Kind, HyperHyperDualKind, Kind, Record};
use compare::words::words;
use evindrast::{Dual3_64, HyperHyperDual64};

const EPSILON: f64 = f64::EPSILON;

/// The fewest cases: in so many each wrong rule shows.
const FEWEST: usize = 1000;

pub fn all(counts: &mut Counts, cases: usize, seed: u64) {
    kind::<Dual3Kind, Dual3_64>(counts, cases.max(FEWEST), seed);
    kind::<HyperHyperDualKind, HyperHyperDual64>(counts, cases.max(FEWEST), seed);
}

fn kind<K: Kind, D: Port>(counts: &mut Counts, cases: usize, seed: u64) {
    let (function, none) = (Function::SphJ1Series, Argument::default());
    let rules = wrong_rules::<K::Record<f64>>();
    let mut shows = rules.map(|_| 0);
    let mut random = Random::new(seed, &format!("series of {}", K::NAME));
    let cell = counts.cell("sph_j1_series", K::NAME);
    for i in 0..cases {
        let parts = match STARTS.get(i) {
            Some(re) => start(*re, K::PARTS),
            None => drawn(&mut random, K::PARTS),
        };
        let x = K::Record::<f64>::of(&parts);
        let rust = evaluate::<f64, K::Record<f64>>(function, &[x], none);
        for (shows, (_, rule)) in shows.iter_mut().zip(&rules) {
            *shows += usize::from(words(&rule(x).parts()) != rust);
        }
        let port = port::own(function, &[record::<D>(&parts)], none);
        cell.case(&port, &Ok(rust), || hex(&words(&parts)));
    }
    for ((name, _), shows) in rules.iter().zip(shows) {
        println!("sph_j1_series of {}, {name}: would show in {shows} of {cases}", K::NAME);
        assert!(shows > 0, "no case of {} shows {name}", K::NAME);
    }
}

/// A rule of records.
type Rule<R> = fn(R) -> R;

/// Rules that are not sph_j1_series, by what is wrong with them.
fn wrong_rules<R: Record<f64>>() -> [(&'static str, Rule<R>); 8] {
    [
        ("the cube from the right", |x| small(x, |x| x / 3.0 - x * (x * x) / 30.0)),
        ("the cube times a thirtieth", |x| small(x, |x| x / 3.0 - x * x * x * (1.0 / 30.0))),
        ("x times a third", |x| small(x, |x| x * (1.0 / 3.0) - x * x * x / 30.0)),
        ("a third of both terms", |x| small(x, |x| (x - x * x * x / 10.0) / 3.0)),
        ("the cube added", |x| small(x, |x| x / 3.0 + x * x * x / 30.0)),
        ("the terms from the other end", |x| small(x, |x| -(x * x * x / 30.0 - x / 3.0))),
        ("no cube", |x| x.sph_j1()),
        ("2^-52 small too", |x| {
            if x.re().abs() == EPSILON { x / 3.0 - x * x * x / 30.0 } else { sph_j1_series(x) }
        }),
    ]
}

/// A rule for real parts below 2^-52, elsewhere sph_j1.
fn small<R: Record<f64>>(x: R, rule: Rule<R>) -> R {
    if x.re().abs() < EPSILON { rule(x) } else { x.sph_j1() }
}

/// Real parts at which a third derivative starts.
const STARTS: [f64; 4] = [0.0, -0.0, EPSILON, -EPSILON];

/// First derivative parts of 1, the others 0.
fn start(re: f64, parts: usize) -> Vec<f64> {
    let firsts = (parts - 2) / 2;
    let part = |place: usize| if place == 0 { re } else { f64::from(place <= firsts) };
    (0..parts).map(part).collect()
}

/// A record whose first derivative parts have one size, and whose others are 0, as large as what the
/// cube takes from them or adds to them, moderate, or any; some of `Dual3` are ties.
fn drawn(random: &mut Random, parts: usize) -> Vec<f64> {
    if parts == 4 && random.chance(10) {
        return tie(random);
    }
    let (firsts, re) = ((parts - 2) / 2, real(random));
    let (exponent, style) = (random.below(41) as i64 - 20, random.below(5));
    let size = 2f64.powi(exponent as i32);
    let mut other = |taken: f64, added: f64| match style {
        0 => 0.0,
        1 => random.scaled(-3, 3) * taken,
        2 => random.scaled(-3, 3) * added,
        3 => random.scaled(-6, 6),
        _ => random.bits(),
    };
    let square = size * size;
    let mut others: Vec<f64> = (0..firsts).map(|_| other(square / re, square * re)).collect();
    others.push(other(0.0, square * size));
    let first = |_| random.scaled(exponent - 1, exponent + 1);
    [vec![re], (0..firsts).map(first).collect(), others].concat()
}

/// Below 2^-52: most near it, others of every magnitude, subnormals, zeros; and the floats about it.
fn real(random: &mut Random) -> f64 {
    let sign = if random.chance(50) { -1.0 } else { 1.0 };
    sign * match random.below(8) {
        0 => 0.0,
        1 => f64::from_bits(EPSILON.to_bits() + 4 - random.below(9) as u64),
        2 => f64::from_bits((random.word() & ((1 << 52) - 1)) >> random.below(52)),
        3 => random.scaled(-1022, -53),
        _ => random.scaled(-70, -53),
    }
}

/// A record of `Dual3` whose cube has a sum halfway between two floats, which its last term decides
/// where it is not added last: the one place where the side that the cube is multiplied from shows.
fn tie(random: &mut Random) -> Vec<f64> {
    let sign = if random.chance(50) { -1.0 } else { 1.0 };
    let size = random.choose(&[1.0, -1.0]) * 2f64.powi(random.below(41) as i32 - 20);
    let re = sign * (EPSILON - EPSILON * EPSILON);
    let v3 = -random.scaled(0, 0).abs() * size * size * size;
    vec![re, size, -sign * 2f64.powi(51) * size * size, v3]
}
