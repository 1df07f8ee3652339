//! Every function of every record, sums and products, roots.
use crate::counts::{Answer, Counts, hex};
use crate::port::{self, Port};
use compare::functions::{Description, FUNCTIONS, Function, evaluate};
use compare::pool::{self, Pool};
use compare::random::Random;
use compare::record::{
    Dual2Kind, Dual3Kind, DualKind, HyperDualKind, HyperHyperDualKind, Kind, Part, Record,
};
use compare::requests::{Request, requests};
use compare::supplied::{Supplied, with_supplied};
use compare::words::{word, words};
use evindrast::{Dual2_64, Dual3_64, Dual64, HyperDual64, HyperHyperDual64, exports};

/// Cases from one pool of floats, its edges first.
const ROUND: usize = 1000;

/// Records of a run, at most.
const RUN: usize = 40;

pub fn all(counts: &mut Counts, cases: usize, seed: u64) {
    kind::<DualKind, Dual64>(counts, cases, seed);
    kind::<Dual2Kind, Dual2_64>(counts, cases, seed);
    kind::<Dual3Kind, Dual3_64>(counts, cases, seed);
    kind::<HyperDualKind, HyperDual64>(counts, cases, seed);
    kind::<HyperHyperDualKind, HyperHyperDual64>(counts, cases, seed);
    roots(counts, 10 * cases, seed);
}

fn kind<K: Kind, D: Port>(counts: &mut Counts, cases: usize, seed: u64) {
    let mut random = Random::new(seed, K::NAME);
    for round in 0..cases.div_ceil(ROUND) {
        let cases = ROUND.min(cases - round * ROUND);
        let pool = Pool::new(&mut random);
        for description in FUNCTIONS.iter().filter(|d| K::offers(d.function)) {
            let requests = requests(&mut random, &pool, description, K::PARTS, cases);
            let cell = counts.cell(description.name, K::NAME);
            for request in requests {
                let parts: Vec<Vec<f64>> = request.records.iter().map(|r| pool.floats(r)).collect();
                let port = by_port::<D>(description, &parts, &request);
                let rust = by_rust::<K>(description, &parts, &request);
                cell.case(&port, &rust, || shown(&parts, &request));
            }
        }
        runs::<K, D>(counts, &mut random, &pool, cases);
    }
}

fn by_port<D: Port>(description: &Description, parts: &[Vec<f64>], request: &Request) -> Answer {
    let records: Vec<D> = parts.iter().map(|p| record(p)).collect();
    match &request.supplied {
        None => port::own(description.function, &records, request.argument),
        Some(values) => port::with(description, &records, request.argument, values),
    }
}

/// The original's answer, or 5 for an exponent that the port refuses.
fn by_rust<K: Kind>(description: &Description, parts: &[Vec<f64>], request: &Request) -> Answer {
    let (function, argument) = (description.function, request.argument);
    if function == Function::Powi && !(-1024..=1024).contains(&argument.exponent) {
        return Err(5);
    }
    Ok(match &request.supplied {
        None => evaluate::<f64, K::Record<f64>>(function, &originals::<f64, K>(parts), argument),
        Some(values) => {
            let values: Vec<_> =
                description.outside().into_iter().zip(values.iter().copied()).collect();
            let records = originals::<Supplied, K>(parts);
            with_supplied(&values, || evaluate(function, &records, argument)).0
        }
    })
}

pub fn originals<F: Part, K: Kind>(parts: &[Vec<f64>]) -> Vec<K::Record<F>> {
    parts.iter().map(|p| K::Record::<F>::of(p)).collect()
}

pub fn record<D: Port>(parts: &[f64]) -> D {
    D::from_parts(parts).expect("as many floats as the record has")
}

fn shown(parts: &[Vec<f64>], request: &Request) -> String {
    let records: Vec<String> = parts.iter().map(|p| hex(&words(p))).collect();
    format!("{}, {:?}, supplied {:?}", records.join(", "), request.argument, request.supplied)
}

fn runs<K: Kind, D: Port>(counts: &mut Counts, random: &mut Random, pool: &Pool, cases: usize) {
    for product in [false, true] {
        let cell = counts.cell(if product { "product of a run" } else { "sum of a run" }, K::NAME);
        for i in 0..cases {
            let count = if i < 3 { i } else { random.below(RUN + 1) };
            let wild = if random.chance(25) { 30 } else { 1 };
            let parts: Vec<Vec<f64>> =
                (0..count).map(|_| drawn(random, pool, K::PARTS, wild)).collect();
            let mine = parts.iter().map(|p| record::<D>(p));
            let theirs = originals::<f64, K>(&parts).into_iter();
            let (mine, theirs) = if product {
                (mine.product::<D>(), theirs.product::<K::Record<f64>>())
            } else {
                (mine.sum::<D>(), theirs.sum::<K::Record<f64>>())
            };
            let (mine, theirs) = (Ok(words(mine.parts())), Ok(words(&theirs.parts())));
            cell.case(&mine, &theirs, || hex(&words(&parts.concat())));
        }
    }
}

/// Moderate floats of the pool, in `wild` percent any.
fn drawn(random: &mut Random, pool: &Pool, count: usize, wild: usize) -> Vec<f64> {
    let place = |random: &mut Random| {
        let range = if random.chance(wild) { pool::ANY } else { pool::MODERATE };
        Pool::place(random, range)
    };
    (0..count).map(|_| pool.0[usize::from(place(random))]).collect()
}

/// The root: edges, any bits, subnormals of every length, and both sides of exact squares.
fn roots(counts: &mut Counts, cases: usize, seed: u64) {
    let mut random = Random::new(seed, "root");
    let mut floats: Vec<f64> = pool::EDGE_WORDS.map(f64::from_bits).to_vec();
    while floats.len() < cases {
        let root = f64::from_bits(random.scaled(-500, 500).to_bits() & !((1 << 27) - 1));
        let square = (root * root).to_bits();
        floats.extend([square - 1, square, square + 1].map(f64::from_bits));
        floats.push(f64::from_bits((random.word() & ((1 << 52) - 1)) >> random.below(52)));
        floats.extend([random.bits(), random.bits().abs(), random.scaled(-1022, 1023).abs()]);
    }
    let cell = counts.cell("root", "f64");
    for x in floats {
        let port = Ok(vec![word(exports::sqrt(x)), exports::sqrt_word(x.to_bits())]);
        let rust = Ok(vec![word(x.sqrt()); 2]);
        cell.case(&port, &rust, || hex(&[x.to_bits()]));
    }
}
