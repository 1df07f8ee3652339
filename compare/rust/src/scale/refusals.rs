//! Refusals: sizes, lengths, orders, counts, kinds and functions, right and wrong, judged from
//! document 01's table alone. A refused call must leave every buffer as it was.
use crate::counts::Counts;
use compare::functions::{Extra, FUNCTIONS, Function};
use compare::random::Random;
use evindrast::exports;

/// Sizes on both sides of 32, and some whose square overflows.
const SIZES: [usize; 14] =
    [0, 1, 2, 2, 3, 3, 4, 31, 32, 33, 34, 1 << 31, 1 << 32, usize::MAX / 2 + 1];

/// What buffers hold before a call.
const BEFORE: f64 = -7.25;

pub fn all(counts: &mut Counts, cases: usize, seed: u64) {
    let mut random = Random::new(seed, "refusals");
    for _ in 0..cases {
        for matrices in [DUAL, HYPERDUAL] {
            for entry in [lu, solve, determinant, inverse] {
                let call = Call::new(&mut random, matrices.parts);
                let outcome = entry(&call, &matrices);
                case(counts, "refusals of matrices", matrices.name, &call, outcome);
            }
        }
        let call = Call::new(&mut random, DUAL.parts);
        case(counts, "refusals of Jacobi", DUAL.name, &call, jacobi(&call));
        let call = RecordCall::new(&mut random);
        case(counts, "refusals of records", "all", &call, record(&call));
        case(counts, "refusals of operators", "all", &call, operator(&call));
        case(counts, "refusals of runs", "all", &call, run(&call));
    }
}

/// The number that a call gave and whether it left its buffers; the number that it should give.
struct Outcome {
    number: u32,
    left: bool,
    wanted: u32,
}

/// Where 0 is wanted the work is done, and LU may give 6.
fn case(counts: &mut Counts, name: &str, record: &'static str, call: &dyn Show, got: Outcome) {
    let Outcome { number, left, wanted } = got;
    let port = if wanted == 0 {
        vec![u64::from(if number == 6 { 0 } else { number })]
    } else {
        vec![u64::from(number), u64::from(left)]
    };
    let rust = if wanted == 0 { vec![0] } else { vec![u64::from(wanted), 1] };
    counts.cell(name, record).case(&Ok(port), &Ok(rust), || call.show());
}

trait Show {
    fn show(&self) -> String;
}

impl<T: std::fmt::Debug> Show for T {
    fn show(&self) -> String {
        format!("{self:?}")
    }
}

/// The functions of matrices of one record, over floats.
#[derive(Copy, Clone)]
struct Matrices {
    name: &'static str,
    parts: usize,
    lu: fn(usize, &[f64], &mut [f64], &mut [usize], &mut usize) -> u32,
    solve: fn(usize, &[f64], &[usize], &[f64], &mut [f64]) -> u32,
    /// Into as many of the floats as the record has parts.
    determinant: fn(usize, &[f64], &[usize], usize, &mut [f64; 4]) -> u32,
    inverse: fn(usize, &[f64], &[usize], &mut [f64]) -> u32,
}

const DUAL: Matrices = Matrices {
    name: "dual",
    parts: 2,
    lu: exports::lu,
    solve: exports::solve,
    determinant: |n, factors, order, swaps, det| {
        let [re, eps, ..] = det;
        let mut parts = [*re, *eps];
        let number = exports::determinant(n, factors, order, swaps, &mut parts);
        [*re, *eps] = parts;
        number
    },
    inverse: exports::inverse,
};

const HYPERDUAL: Matrices = Matrices {
    name: "hyperdual",
    parts: 4,
    lu: exports::hyperdual_lu,
    solve: exports::hyperdual_solve,
    determinant: exports::hyperdual_determinant,
    inverse: exports::hyperdual_inverse,
};

/// A call of a matrix function, its lengths mostly the right ones.
#[derive(Debug)]
struct Call {
    parts: usize,
    n: usize,
    square: [usize; 2],
    vector: [usize; 2],
    order: Vec<usize>,
    swaps: usize,
    limit: usize,
}

impl Call {
    fn new(random: &mut Random, parts: usize) -> Self {
        let n = random.choose(&SIZES);
        let near = n.min(34);
        let mut length = |right: usize| match random.below(10) {
            0 => right + 1,
            1 => right.saturating_sub(1),
            2 => right / 2,
            _ => right,
        };
        let square = [length(parts * near * near), length(parts * near * near)];
        let vector = [length(parts * near), length(parts * near)];
        let mut order: Vec<usize> = (0..length(near)).collect();
        random.shuffle(&mut order);
        if random.chance(20) && !order.is_empty() {
            let place = random.below(order.len());
            order[place] = random.choose(&[0, n / 2, n, n.wrapping_add(1), usize::MAX, 64]);
        }
        let swaps = random.choose(&[0, 1, 2, 3, 31, 32, 33, 34, usize::MAX, usize::MAX - 1]);
        let limit = random.choose(&[0, 1, 2, 1000, 1001, usize::MAX]);
        Self { parts, n, square, vector, order, swaps, limit }
    }

    /// The first that holds of 1 and 2, where these lengths are floats, beside the order.
    fn size_or_length(&self, squares: &[usize], vectors: &[usize], order: bool) -> Option<u32> {
        let (n, parts) = (self.n, self.parts);
        if n > 32 {
            return Some(1);
        }
        let wrong = squares.iter().any(|length| *length != parts * n * n)
            || vectors.iter().any(|length| *length != parts * n)
            || order && self.order.len() != n;
        wrong.then_some(2)
    }

    fn not_an_order(&self) -> Option<u32> {
        let all = (0..self.n).all(|row| self.order.contains(&row));
        (!all).then_some(7)
    }

    fn wrong_swaps(&self) -> Option<u32> {
        let order = &self.order;
        let above = |i: usize| order[..i].iter().filter(|row| **row > order[i]).count();
        let inversions: usize = (0..order.len()).map(above).sum();
        (self.swaps > 32 || self.swaps % 2 != inversions % 2).then_some(8)
    }
}

fn buffer(length: usize) -> Vec<f64> {
    vec![BEFORE; length]
}

fn is_left(buffers: &[&[f64]]) -> bool {
    buffers.concat().iter().all(|x| x.to_bits() == BEFORE.to_bits())
}

fn lu(call: &Call, matrices: &Matrices) -> Outcome {
    let [mut factors, a] = call.square.map(buffer);
    let (mut order, mut swaps_or_column) = (vec![99; call.order.len()], 77);
    let number = (matrices.lu)(call.n, &a, &mut factors, &mut order, &mut swaps_or_column);
    let left = is_left(&[&factors]) && order.iter().all(|row| *row == 99) && swaps_or_column == 77;
    Outcome { number, left, wanted: call.size_or_length(&call.square, &[], true).unwrap_or(0) }
}

fn solve(call: &Call, matrices: &Matrices) -> Outcome {
    let [factors, _] = call.square.map(buffer);
    let [b, mut x] = call.vector.map(buffer);
    let number = (matrices.solve)(call.n, &factors, &call.order, &b, &mut x);
    let wanted = call.size_or_length(&call.square[..1], &call.vector, true);
    let wanted = wanted.or_else(|| call.not_an_order()).unwrap_or(0);
    Outcome { number, left: is_left(&[&x]), wanted }
}

fn determinant(call: &Call, matrices: &Matrices) -> Outcome {
    let [factors, _] = call.square.map(buffer);
    let mut det = [BEFORE; 4];
    let number = (matrices.determinant)(call.n, &factors, &call.order, call.swaps, &mut det);
    let wanted = call.size_or_length(&call.square[..1], &[], true);
    let wanted = wanted.or_else(|| call.not_an_order()).or_else(|| call.wrong_swaps());
    Outcome { number, left: is_left(&[&det]), wanted: wanted.unwrap_or(0) }
}

fn inverse(call: &Call, matrices: &Matrices) -> Outcome {
    let [factors, mut out] = call.square.map(buffer);
    let number = (matrices.inverse)(call.n, &factors, &call.order, &mut out);
    let wanted = call.size_or_length(&call.square, &[], true);
    let wanted = wanted.or_else(|| call.not_an_order()).unwrap_or(0);
    Outcome { number, left: is_left(&[&out]), wanted }
}

fn jacobi(call: &Call) -> Outcome {
    let [a, mut vectors] = call.square.map(buffer);
    let [mut values, _] = call.vector.map(buffer);
    let (limit, mut sweeps) = (call.limit, 77);
    let number =
        exports::jacobi_eigenvalue(call.n, &a, limit, &mut values, &mut vectors, &mut sweeps);
    let wanted = if call.n == 0 {
        3
    } else {
        let first = call.size_or_length(&call.square, &call.vector[..1], false);
        first.unwrap_or(if limit > 1000 { 4 } else { 0 })
    };
    let left = is_left(&[&values, &vectors]) && sweeps == 77;
    Outcome { number, left, wanted }
}

/// A call by numbers for records.
#[derive(Debug)]
struct RecordCall {
    kind: u32,
    function: u32,
    exponent: i32,
    records: usize,
    floats: usize,
    out: usize,
}

impl RecordCall {
    fn new(random: &mut Random) -> Self {
        let kind = random.choose(&[0, 1, 2, 3, 4, 5, 6, 1 << 16, u32::MAX]);
        let function = match random.below(40) {
            0 => u32::MAX,
            1 => 0x100 + random.below(0x50) as u32,
            _ => random.below(0x48) as u32,
        };
        let exponent = random.choose(&[0, 3, 1024, -1024, 1025, -1025, i32::MAX, i32::MIN]);
        // a kind that has not the function is lent what another would want
        let lengths = taken(parts(kind).unwrap_or(8), function).unwrap_or([8, 1, 8]);
        let mut length = |right: usize| match random.below(12) {
            0 => right + 1,
            1 => right.saturating_sub(1),
            2 => right * 2,
            _ => right,
        };
        let [records, floats, out] = lengths.map(&mut length);
        Self { kind, function, exponent, records, floats, out }
    }
}

/// Floats of a record of this kind.
fn parts(kind: u32) -> Option<usize> {
    [2, 3, 4, 4, 8].get((kind as usize).checked_sub(1)?).copied()
}

/// The floats wanted for records, for plain and outside floats, and for the answer, where the kind has
/// the function.
fn lengths(kind: u32, function: u32) -> Option<[usize; 3]> {
    let parts = parts(kind)?;
    match function {
        0x03 => None,
        0x05 if kind > 3 => None,
        0x06 | 0x07 if kind < 4 => None,
        0x08 if kind < 5 => None,
        0x44 if kind != 3 && kind != 5 => None,
        _ => taken(parts, function),
    }
}

/// The same by the floats of a record alone.
fn taken(parts: usize, function: u32) -> Option<[usize; 3]> {
    let known = FUNCTIONS.iter().find(|d| d.function as u32 == function)?;
    let floats = known.extras.iter().filter(|extra| **extra != Extra::Exponent).count();
    Some([known.records * parts, floats, known.answer_words(parts)])
}

fn record(call: &RecordCall) -> Outcome {
    let [records, floats, mut out] = [call.records, call.floats, call.out].map(buffer);
    let number =
        exports::record(call.kind, call.function, call.exponent, &records, &floats, &mut out);
    let right = lengths(call.kind, call.function) == Some([call.records, call.floats, call.out]);
    let powi = call.function == Function::Powi as u32;
    let wanted = match (right, powi && !(-1024..=1024).contains(&call.exponent)) {
        (false, _) => 2,
        (true, true) => 5,
        (true, false) => 0,
    };
    Outcome { number, left: is_left(&[&out]), wanted }
}

/// One of the four operators, whatever function the call names: all take two records and no float.
fn operator(call: &RecordCall) -> Outcome {
    let operators = [exports::add, exports::sub, exports::mul, exports::div];
    let [records, mut out] = [call.records, call.out].map(buffer);
    let number = operators[call.function as usize % 4](call.kind, &records, &mut out);
    let two = |parts: usize| records.len() == 2 * parts && out.len() == parts;
    let wanted = if parts(call.kind).is_some_and(two) { 0 } else { 2 };
    Outcome { number, left: is_left(&[&out]), wanted }
}

fn run(call: &RecordCall) -> Outcome {
    let [run, mut out] = [call.records, call.out].map(buffer);
    let number = if call.exponent < 0 {
        exports::sum(call.kind, &run, &mut out)
    } else {
        exports::product(call.kind, &run, &mut out)
    };
    let whole = |parts: usize| run.len() % parts == 0 && out.len() == parts;
    let wanted = if parts(call.kind).is_some_and(whole) { 0 } else { 2 };
    Outcome { number, left: is_left(&[&out]), wanted }
}
