//! The lent functions with sizes, lengths, orders and counts of all sorts: each answers with the
//! number of document 01's table, and a call that is refused writes nothing, but for LU's 6.
mod random;

use evindrast::exports;
use random::{parity, Random};

/// What buffers hold before a call.
const BEFORE: f64 = -7.25;

fn filled(length: usize) -> Vec<f64> {
    vec![BEFORE; length]
}

fn untouched(floats: &[f64]) -> bool {
    floats.iter().all(|float| *float == BEFORE)
}

/// The functions of matrices of one record of so many floats.
#[allow(clippy::type_complexity)]
struct Matrices<const W: usize> {
    lu: fn(usize, &[f64], &mut [f64], &mut [usize], &mut usize) -> u32,
    solve: fn(usize, &[f64], &[usize], &[f64], &mut [f64]) -> u32,
    determinant: fn(usize, &[f64], &[usize], usize, &mut [f64; W]) -> u32,
    inverse: fn(usize, &[f64], &[usize], &mut [f64]) -> u32,
}

const DUAL: Matrices<2> = Matrices {
    lu: exports::lu,
    solve: exports::solve,
    determinant: exports::determinant,
    inverse: exports::inverse,
};

const HYPERDUAL: Matrices<4> = Matrices {
    lu: exports::hyperdual_lu,
    solve: exports::hyperdual_solve,
    determinant: exports::hyperdual_determinant,
    inverse: exports::hyperdual_inverse,
};

/// A size, and lengths that are right for it or not: two matrices, two vectors, an order.
struct Call {
    n: usize,
    square: [usize; 2],
    vector: [usize; 2],
    order: Vec<usize>,
    swaps: usize,
}

impl Call {
    fn new(random: &mut Random, floats: usize) -> Self {
        let n = random.size();
        let near = n.min(40);
        let square = [0; 2].map(|_| random.length(floats * near * near));
        let vector = [0; 2].map(|_| random.length(floats * near));
        let length = random.length(near);
        let (order, swaps) = (random.order(length), random.swaps());
        Self { n, square, vector, order, swaps }
    }

    /// The first of 1, 2 and 7 that document 01's table gives where these lengths count, else 0.
    fn wanted(&self, floats: usize, squares: usize, vectors: usize, ordered: bool) -> u32 {
        let n = self.n;
        if n > 32 {
            return 1;
        }
        let wrong = self.square[..squares].iter().any(|length| *length != floats * n * n)
            || self.vector[..vectors].iter().any(|length| *length != floats * n)
            || self.order.len() != n;
        match wrong {
            true => 2,
            false if ordered && parity(&self.order).is_none() => 7,
            false => 0,
        }
    }

    /// A matrix whose first column is zero where `singular`, else with a heavy diagonal.
    fn matrix(&self, floats: usize, singular: bool) -> Vec<f64> {
        let entry = |place: usize| {
            let (record, n) = (place / floats, self.n.clamp(1, 40));
            match (record % n, record / n) {
                (0, _) if singular => 0.0,
                (column, row) if column == row => 100.0,
                _ => 1.0,
            }
        };
        (0..self.square[0]).map(entry).collect()
    }
}

fn lu<const W: usize>(random: &mut Random, matrices: &Matrices<W>, seen: &mut [usize; 9]) {
    let call = Call::new(random, W);
    let singular = random.below(4) == 0;
    let a = call.matrix(W, singular);
    let (mut factors, mut swaps_or_column) = (filled(call.square[1]), 77);
    let mut order = vec![77; call.order.len()];
    let number = (matrices.lu)(call.n, &a, &mut factors, &mut order, &mut swaps_or_column);
    let wanted = match call.wanted(W, 2, 0, false) {
        0 if singular && call.n > 0 => 6,
        number => number,
    };
    assert_eq!(number, wanted, "LU, n = {}, {:?}, order {}", call.n, call.square, order.len());
    match number {
        0 => assert!(
            swaps_or_column == 0 && order.iter().enumerate().all(|(place, row)| place == *row)
        ),
        6 => {
            assert!(factors.iter().all(|float| float.to_bits() == 0));
            assert!(swaps_or_column == 0 && order.iter().all(|row| *row == 0));
        }
        _ => assert!(
            untouched(&factors) && swaps_or_column == 77 && order.iter().all(|row| *row == 77)
        ),
    }
    seen[number as usize] += 1;
}

fn solve<const W: usize>(random: &mut Random, matrices: &Matrices<W>, seen: &mut [usize; 9]) {
    let call = Call::new(random, W);
    let (factors, b) = (call.matrix(W, false), filled(call.vector[0]));
    let mut x = filled(call.vector[1]);
    let number = (matrices.solve)(call.n, &factors, &call.order, &b, &mut x);
    let Call { n, square, vector, order, .. } = &call;
    let wanted = call.wanted(W, 1, 2, true);
    assert_eq!(number, wanted, "solve, n = {n}, {square:?}, {vector:?}, order {order:?}");
    assert!(untouched(&x) == (number != 0 || *n == 0));
    seen[number as usize] += 1;
}

fn determinant<const W: usize>(random: &mut Random, matrices: &Matrices<W>, seen: &mut [usize; 9]) {
    let call = Call::new(random, W);
    let (factors, mut det) = (call.matrix(W, false), [BEFORE; W]);
    let number = (matrices.determinant)(call.n, &factors, &call.order, call.swaps, &mut det);
    let Call { n, square, order, swaps, .. } = &call;
    let fits = |order: &[usize]| *swaps <= 32 && parity(order) == Some(swaps % 2);
    let wanted = match call.wanted(W, 1, 0, true) {
        0 if !fits(order) => 8,
        number => number,
    };
    assert_eq!(number, wanted, "determinant, n = {n}, {square:?}, order {order:?}, {swaps} swaps");
    assert!(untouched(&det) == (number != 0));
    seen[number as usize] += 1;
}

fn inverse<const W: usize>(random: &mut Random, matrices: &Matrices<W>, seen: &mut [usize; 9]) {
    let call = Call::new(random, W);
    let (factors, mut out) = (call.matrix(W, false), filled(call.square[1]));
    let number = (matrices.inverse)(call.n, &factors, &call.order, &mut out);
    let Call { n, square, order, .. } = &call;
    assert_eq!(number, call.wanted(W, 2, 0, true), "inverse, n = {n}, {square:?}, order {order:?}");
    assert!(untouched(&out) == (number != 0 || *n == 0));
    seen[number as usize] += 1;
}

fn jacobi(random: &mut Random, seen: &mut [usize; 9]) {
    let mut call = Call::new(random, 2);
    call.order = (0..call.n.min(40)).collect(); // no order is lent
    let limit = random.choose(&[0, 1, 5, 1000, 1001, 1 << 32, usize::MAX]);
    let a = call.matrix(2, false);
    let (mut vectors, mut values, mut sweeps) =
        (filled(call.square[1]), filled(call.vector[0]), 77);
    let number =
        exports::jacobi_eigenvalue(call.n, &a, limit, &mut values, &mut vectors, &mut sweeps);
    let wanted = match (call.n, call.wanted(2, 2, 1, false)) {
        (0, _) => 3,
        (_, 0) if limit > 1000 => 4,
        (_, number) => number,
    };
    let Call { n, square, vector, .. } = &call;
    assert_eq!(number, wanted, "Jacobi, n = {n}, {square:?}, {vector:?}, limit {limit}");
    assert!(untouched(&values) == (number != 0) && untouched(&vectors) == (number != 0));
    assert!(if number == 0 { sweeps <= limit } else { sweeps == 77 });
    seen[number as usize] += 1;
}

#[test]
fn every_size_and_length_of_a_matrix_has_its_number() {
    let mut random = Random::new(0x5eed);
    let mut seen = [0; 9];
    for _ in 0..4000 {
        lu(&mut random, &DUAL, &mut seen);
        lu(&mut random, &HYPERDUAL, &mut seen);
        solve(&mut random, &DUAL, &mut seen);
        solve(&mut random, &HYPERDUAL, &mut seen);
        determinant(&mut random, &DUAL, &mut seen);
        determinant(&mut random, &HYPERDUAL, &mut seen);
        inverse(&mut random, &DUAL, &mut seen);
        inverse(&mut random, &HYPERDUAL, &mut seen);
        jacobi(&mut random, &mut seen);
    }
    let few: Vec<usize> = (0..9).filter(|number| *number != 5 && seen[*number] < 100).collect();
    assert!(few.is_empty(), "the numbers {few:?} came less than 100 times: {seen:?}");
}

/// What the header says of a function: the records and floats that it takes, what it gives, and for
/// which kinds.
struct Said {
    number: u32,
    records: usize,
    floats: usize,
    gives: Gives,
    kinds: Vec<u32>,
}

#[derive(PartialEq)]
enum Gives {
    Records(usize),
    Truth,
}

/// The header's enum of functions, read: `EVINDRAST_SIN = 0x26, /* x [sin(re), cos(re)] */`.
fn header() -> Vec<Said> {
    let text = include_str!("../../include/evindrast.h");
    let start = text.find("enum evindrast_function {").expect("the enum");
    let body = &text[start..start + text[start..].find("};").expect("its end")];
    let truths = body.find("/* truths,").expect("the truths");
    let mut said = vec![];
    for line in body.lines().filter(|line| line.contains(" = 0x")) {
        let at = line.as_ptr() as usize - body.as_ptr() as usize;
        let (_, line) = line.split_once(" = 0x").expect("a number");
        let (hex, line) = line.split_once("/* ").expect("a comment");
        let takes = line.trim_end_matches("*/").split([';', ':']).next().expect("what it takes");
        let (records, floats) = match takes.split_once('[') {
            Some((records, floats)) => (records, floats.split(']').next().expect("its end")),
            None => (takes, ""),
        };
        said.push(Said {
            number: u32::from_str_radix(hex.trim_end_matches([',', ' ']), 16).expect("hex"),
            records: records.matches(['x', 'y', 'z']).count(),
            floats: listed(floats),
            gives: match line {
                _ if at > truths => Gives::Truth,
                line if line.contains("two records") => Gives::Records(2),
                _ => Gives::Records(1),
            },
            kinds: match line.split_once("kind") {
                Some((_, kinds)) => {
                    let kinds = kinds.split(':').next().expect("kinds");
                    kinds.chars().filter_map(|digit| digit.to_digit(10)).collect()
                }
                None => vec![1, 2, 3, 4, 5],
            },
        });
    }
    said
}

/// How many there are, divided by commas outside brackets.
fn listed(text: &str) -> usize {
    let (mut depth, mut commas) = (0, 0);
    for c in text.chars() {
        match c {
            '(' => depth += 1,
            ')' => depth -= 1,
            ',' if depth == 0 => commas += 1,
            _ => {}
        }
    }
    if text.trim().is_empty() {
        0
    } else {
        commas + 1
    }
}

/// Floats a record, by kind.
const WIDTHS: [(u32, usize); 5] = [(1, 2), (2, 3), (3, 4), (4, 4), (5, 8)];

#[test]
fn every_length_of_a_record_has_its_number() {
    let header = header();
    assert_eq!(header.len(), evindrast::Function::ALL.len());
    let unknown = [0x00, 0x03, 0x13, 0x14, 0x39, 0x3a, 0x45, 0x126, u32::MAX];
    let numbers = header.iter().map(|said| said.number).chain(unknown);
    let kinds = WIDTHS.iter().copied().chain([(0, 2), (6, 2), (u32::MAX, 2)]);
    let (mut done, mut refused) = (0, 0);
    for (kind, width) in kinds {
        for number in numbers.clone() {
            let said = header.iter().find(|said| said.number == number);
            let said = said.filter(|said| said.kinds.contains(&kind));
            for records in 0..=3 * width + 1 {
                for floats in 0..=3 {
                    for out in [0, 1, width - 1, width, width + 1, 2 * width] {
                        let fits = said.map_or(false, |said| {
                            let gives = match said.gives {
                                Gives::Records(count) => count * width,
                                Gives::Truth => 1,
                            };
                            (records, floats, out) == (said.records * width, said.floats, gives)
                        });
                        let mut written = filled(out);
                        let (records, floats) = (vec![0.5; records], vec![0.25; floats]);
                        let got = exports::record(kind, number, 3, &records, &floats, &mut written);
                        let shape = (kind, number, records.len(), floats.len(), out);
                        assert_eq!(got, if fits { 0 } else { 2 }, "{shape:x?}");
                        assert!(fits || untouched(&written), "{shape:x?}");
                        *(if fits { &mut done } else { &mut refused }) += 1;
                    }
                }
            }
        }
    }
    assert!(done > 250 && refused > 100_000, "{done} done, {refused} refused");
}

#[test]
fn every_length_of_an_operator_or_a_run_has_its_number() {
    let operators = [exports::add, exports::sub, exports::mul, exports::div];
    for (kind, width) in WIDTHS.iter().copied().chain([(0, 2), (6, 2), (u32::MAX, 2)]) {
        let known = WIDTHS.iter().any(|known| known.0 == kind);
        for length in 0..=4 * width + 1 {
            for out in 0..=2 * width {
                let records = vec![0.5; length];
                for operator in operators {
                    let mut written = filled(out);
                    let fits = known && (length, out) == (2 * width, width);
                    let number = operator(kind, &records, &mut written);
                    assert_eq!(number, if fits { 0 } else { 2 }, "{kind} {length} {out}");
                    assert!(fits || untouched(&written));
                }
                for run in [exports::sum, exports::product] {
                    let mut written = filled(out);
                    let fits = known && length % width == 0 && out == width;
                    let number = run(kind, &records, &mut written);
                    assert_eq!(number, if fits { 0 } else { 2 }, "{kind} {length} {out}");
                    assert!(fits || untouched(&written));
                }
            }
        }
    }
}

#[test]
fn every_exponent_has_its_number() {
    for (kind, width) in WIDTHS {
        let record = vec![1.0; width];
        for exponent in (-1100..=1100).chain([i32::MIN, i32::MIN + 1, i32::MAX, -1 << 16]) {
            let mut out = filled(width);
            let fits = (-1024..=1024).contains(&exponent);
            let got = exports::record(kind, 0x1b, exponent, &record, &[1.0], &mut out);
            assert_eq!(got, if fits { 0 } else { 5 }, "{kind} {exponent}");
            assert!(fits || untouched(&out));
            // a wrong length comes first
            assert_eq!(exports::record(kind, 0x1b, exponent, &record, &[], &mut out), 2);
        }
    }
}
