//! Requests for the records: which function of which records, with which values from outside.
use crate::functions::{Argument, Description, Extra, Function};
use crate::pool::{self, Pool};
use crate::random::Random;
use crate::words::float;

/// One call. The records are places in the pool.
#[derive(Debug)]
pub struct Request {
    pub records: Vec<Vec<u8>>,
    pub argument: Argument,
    /// Values for the outside functions, in the line's order; none: the Rust's own.
    pub supplied: Option<Vec<f64>>,
}

/// All requests for one function: fixed ones and edges first, then random; where something comes
/// from outside, the last three tenths carry arbitrary values. A constant has one case. Small real
/// parts of sph_j1_series come before these, in addition.
pub fn requests(
    random: &mut Random,
    pool: &Pool,
    description: &Description,
    parts: usize,
    cases: usize,
) -> Vec<Request> {
    let constant = description.records == 0 && description.extras.is_empty();
    let cases = if constant { 1 } else { cases };
    let own = if description.outside().is_empty() { cases } else { cases - cases * 3 / 10 };
    let mut maker = Maker { random, pool, description, parts };
    let mut requests = maker.small();
    let fixed = maker.fixed();
    let others = fixed.len()..cases;
    requests.extend(fixed);
    requests.extend(others.enumerate().map(|(i, at)| maker.request(i, at < own)));
    requests
}

struct Maker<'a> {
    random: &'a mut Random,
    pool: &'a Pool,
    description: &'a Description,
    parts: usize,
}

impl Maker<'_> {
    fn fixed(&mut self) -> Vec<Request> {
        let mut requests = self.deciding();
        requests.extend(self.turning());
        requests
    }

    /// Real parts at which another grouping of a derivative gives another float (`pool::TURNS`), with
    /// slopes of 1 in the first parts, so that the derivative itself comes out; the values from outside
    /// are fixed too.
    fn turning(&self) -> Vec<Request> {
        let [small, root, large] = [0, 1, 2].map(|turn| (pool::TURNS.start + turn) as u8);
        let cases: &[(u8, &[f64])] = match self.description.function {
            Function::Recip | Function::Inv => &[(small, &[])],
            Function::Sqrt => &[(root, &[])],
            Function::Ln | Function::Log2 | Function::Log10 | Function::Ln1p => &[(small, &[1.5])],
            Function::Log => &[(small, &[1.5, 0.75]), (large, &[1.5, BASE_BY_ONE])],
            _ => &[],
        };
        let request = |(real, supplied): &(u8, &[f64]), ones: usize| Request {
            records: vec![self.with(*real, |part| if part <= ones { ONE } else { ZERO })],
            argument: Argument::default(),
            supplied: Some(supplied.to_vec()),
        };
        cases
            .iter()
            .flat_map(|case| (1..self.parts.min(4)).map(move |ones| request(case, ones)))
            .collect()
    }

    /// For sph_j1_series: every real part of the pool below 2^-52, 0 first, and those next to it. First
    /// derivative parts of 1, then any, the others 0, so that the cube itself comes out; then second
    /// ones so large that all terms of the cube are of one size; then all any.
    fn small(&mut self) -> Vec<Request> {
        if self.description.function != Function::SphJ1Series {
            return vec![];
        }
        let (firsts, last) = ((self.parts - 2) / 2, self.parts - 1);
        let mut records = vec![];
        for real in self.pool.small().into_iter().chain(NOT_SMALL) {
            let slopes: Vec<u8> =
                (0..self.parts).map(|_| Pool::place(self.random, pool::MODERATE)).collect();
            let large = self.pool.reciprocals(self.pool.0[usize::from(real)]);
            records.extend([
                self.with(real, |part| if part <= firsts { ONE } else { ZERO }),
                self.with(real, |part| if part <= firsts { slopes[part] } else { ZERO }),
                self.with(real, |part| match part {
                    _ if part <= firsts => slopes[part],
                    _ if part == last => ZERO,
                    _ => large[part - firsts - 1],
                }),
                self.with(real, |part| slopes[part]),
            ]);
        }
        records.dedup(); // nothing is large beside 0
        records.into_iter().map(|record| plain(vec![record])).collect()
    }

    /// For comparisons and tests: the real parts that decide them, with derivative parts that must
    /// not matter.
    fn deciding(&mut self) -> Vec<Request> {
        let records: Vec<Vec<Vec<u8>>> = match self.description.function {
            Function::Eq
            | Function::Lt
            | Function::Le
            | Function::Gt
            | Function::Ge
            | Function::AbsSub => PAIRS.iter().flat_map(|pair| self.pairs(*pair)).collect(),
            Function::IsNegative | Function::IsPositive | Function::IsZero | Function::IsOne => {
                let with = |real| SLOPES.map(|slope| vec![self.with(real, |_| slope)]);
                TESTED.iter().copied().flat_map(with).collect()
            }
            _ => vec![],
        };
        records.into_iter().map(plain).collect()
    }

    /// Two records with these real parts: derivative parts the same, and each another.
    fn pairs(&mut self, [first, second]: [u8; 2]) -> [Vec<Vec<u8>>; 2] {
        let slopes: Vec<u8> = (0..self.parts).map(|_| self.slope()).collect();
        let one = self.with(first, |part| slopes[part]);
        let same = self.with(second, |part| slopes[part]);
        let other = self.with(second, |part| slopes[part].wrapping_add(1));
        [vec![one.clone(), same], vec![one, other]]
    }

    fn with(&self, real: u8, slope: impl Fn(usize) -> u8) -> Vec<u8> {
        (0..self.parts).map(|part| if part == 0 { real } else { slope(part) }).collect()
    }

    fn request(&mut self, i: usize, own: bool) -> Request {
        let first = pool::EDGES.end;
        let mut records: Vec<Vec<u8>> =
            (0..self.description.records).map(|r| self.record(i, r)).collect();
        for (r, record) in records.iter_mut().enumerate() {
            let place = i.wrapping_sub(first + 2 * r * self.parts);
            if place < 2 * self.parts {
                let special = if place < self.parts { pool::NAN } else { pool::INFINITY };
                record[place % self.parts] = special;
            }
        }
        let argument = Argument { float: self.float(i), exponent: self.exponent(i) };
        let supplied = (!own).then(|| {
            (self.description.outside().iter()).map(|_| self.pool.0[self.any() as usize]).collect()
        });
        Request { records, argument, supplied }
    }

    fn record(&mut self, i: usize, r: usize) -> Vec<u8> {
        let real = if r == 0 && i < pool::EDGES.end { i as u8 } else { self.real(r) };
        (0..self.parts).map(|part| if part == 0 { real } else { self.slope() }).collect()
    }

    /// A real part: an edge, one that the function is at home with, or any.
    fn real(&mut self, r: usize) -> u8 {
        match self.random.below(5) {
            0 => Pool::place(self.random, pool::EDGES),
            1 => Pool::place(self.random, pool::ANY),
            _ if r > 0 => Pool::place(self.random, pool::MODERATE),
            _ => match self.description.function {
                Function::Asin | Function::Acos | Function::Atanh => {
                    Pool::place(self.random, pool::UNIT)
                }
                Function::Acosh => self.pool.apt(self.random, |x| x > 1.0),
                Function::Ln
                | Function::Log
                | Function::Log2
                | Function::Log10
                | Function::Powf
                | Function::Powd
                | Function::Sqrt => self.pool.apt(self.random, |x| x > 0.0),
                Function::SphJ1Series => self.random.choose(&self.pool.small()),
                _ => self.pool.apt(self.random, |_| true),
            },
        }
    }

    fn slope(&mut self) -> u8 {
        match self.random.below(8) {
            0 => Pool::place(self.random, pool::EDGES),
            1 => Pool::place(self.random, pool::ANY),
            2 => Pool::place(self.random, pool::UNIT),
            _ => Pool::place(self.random, pool::MODERATE),
        }
    }

    fn any(&mut self) -> u8 {
        if self.random.chance(40) { self.slope() } else { Pool::place(self.random, pool::ANY) }
    }

    /// A plain float; for powf and log first the exponents and bases that matter.
    fn float(&mut self, i: usize) -> f64 {
        let listed: &[u64] = match self.description.function {
            Function::Powf => &POWF_EXPONENTS,
            Function::Log => &LOG_BASES,
            _ => &[],
        };
        match listed.get(i % (listed.len() * 2).max(1)) {
            Some(bits) => float(*bits),
            None => self.pool.0[self.any() as usize],
        }
    }

    fn exponent(&mut self, i: usize) -> i32 {
        if !self.description.extras.contains(&Extra::Exponent) {
            return 0;
        }
        match POWI_EXPONENTS.get(i % (POWI_EXPONENTS.len() + 5)) {
            Some(exponent) => *exponent,
            None => self.random.below(2049) as i32 - 1024,
        }
    }
}

/// A call of records alone, with the Rust's own values from outside.
fn plain(records: Vec<Vec<u8>>) -> Request {
    Request { records, argument: Argument::default(), supplied: None }
}

/// 0 and 1, as places of edges.
const ZERO: u8 = 0;
const ONE: u8 = 2;

/// 2^-52, the next float, and both with a minus, as places of edges: no longer small.
const NOT_SMALL: [u8; 4] = [15, 17, 18, 20];

/// The logarithm of a base so near 1 that the derivatives there lie just below the largest float.
const BASE_BY_ONE: f64 = f64::from_bits(0x00059f0000000000);

/// Real parts, as places of edges, that are equal or next to it: 1, zeros of either sign, NaN,
/// infinities, subnormals, neighbours.
#[rustfmt::skip]
const PAIRS: [[u8; 2]; 16] = [
    [2, 2], [0, 0], [0, 1], [1, 0], [1, 1], [14, 14], [14, 2], [2, 14],
    [12, 12], [13, 13], [12, 13], [13, 12], [4, 4], [4, 5], [2, 23], [23, 2],
];

/// Real parts about 0 and 1, as places of edges: 0, -0, 1, -1, subnormals, NaN, 1's neighbours.
const TESTED: [u8; 10] = [0, 1, 2, 3, 4, 5, 6, 14, 22, 23];

/// All derivative parts 0, -0, 1, infinite or NaN, as places of edges.
const SLOPES: [u8; 5] = [0, 1, 2, 12, 14];

/// Those beyond 1,024 either way the port refuses with 5.
#[rustfmt::skip]
const POWI_EXPONENTS: [i32; 20] = [
    -1024, -1, 0, 1, 2, 3, 4, 1024, 1025, -1025, 5, -2, -3, 6, 7, 100, -1023, 1023, i32::MAX, i32::MIN,
];

#[rustfmt::skip]
const POWF_EXPONENTS: [u64; 24] = [
    0x0000000000000000, 0x8000000000000000, 0x3ff0000000000000, 0x3fefffffffffffff, // 0, 1
    0x3ff0000000000001, 0x4000000000000000, 0x3fffffffffffffff, 0x4000000000000001, // 2
    0x4008000000000000, 0x4010000000000000, 0x3fe0000000000000, 0xbfe0000000000000, // 3, 4, 1/2
    0xbff0000000000000, 0xc000000000000000, 0x3fd5555555555555, 0x4004000000000000, // -1, -2, 1/3
    0x0000000000000001, 0x8000000000000001, 0x3cb0000000000000, 0x7fefffffffffffff,
    0x7ff0000000000000, 0xfff0000000000000, 0x7ff8000000000000, 0x4340000000000000,
];

#[rustfmt::skip]
const LOG_BASES: [u64; 8] = [
    0x4000000000000000, 0x4024000000000000, 0x4005bf0a8b145769, 0x3fe0000000000000, // 2, 10, e
    0x3ff0000000000000, 0x0000000000000000, 0xbff0000000000000, 0x7ff0000000000000,
];
