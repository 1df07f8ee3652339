//! Requests for matrices over a record, `Dual` unless another is named, by seed.
use crate::matrices::{Entries, Entry, Factors};
use crate::random::Random;
use crate::record::Record;

#[derive(Clone)]
pub struct Matrix<T = Entry> {
    pub n: usize,
    pub entries: Entries<T>,
}

/// The record of a real part, its slopes in the order of its parts.
fn record<T: Record<f64>>(re: f64, mut slope: impl FnMut() -> f64) -> T {
    let parts = T::zero().parts().len();
    let slopes = (1..parts).map(|_| slope());
    T::of(&[re].into_iter().chain(slopes).collect::<Vec<f64>>())
}

/// The record with another real part.
fn with_re<T: Record<f64>>(entry: T, re: f64) -> T {
    let mut parts = entry.parts();
    parts[0] = re;
    T::of(&parts)
}

/// Sweep limits in turn.
pub const LIMITS: [usize; 9] = [200, 0, 1, 2, 4, 5, 6, 50, 1000];

/// The kinds of matrices, in turn. The last seven are for Jacobi.
#[derive(Copy, Clone, Debug, PartialEq)]
#[rustfmt::skip]
pub enum Style {
    Moderate, Whole, Signs, EqualRows, FortyNine, OneEdge, Edges, Wide, Bits,
    Diagonal, Sorted, Repeated, Vanishing, Overflowing, Faint, NegativeZeros,
}
use Style::*;

pub const GENERAL: &[Style] =
    &[Moderate, Whole, Signs, EqualRows, FortyNine, OneEdge, Edges, Wide, Bits];

#[rustfmt::skip]
pub const SYMMETRIC: &[Style] = &[
    Moderate, Whole, Diagonal, Signs, Faint, OneEdge, Repeated, Moderate, Edges, Vanishing,
    Sorted, Overflowing, FortyNine, NegativeZeros, Wide, Bits, EqualRows,
];

/// Mostly small; every sixty-fourth is of any size, 32, 12 and 9 first, then each in turn, one
/// further every round, so that every size meets every style.
pub fn size(random: &mut Random, i: usize) -> usize {
    match (i % 64, i / 64) {
        (63, turn) => [32, 12, 9].get(turn).copied().unwrap_or((turn + turn / 33) % 33),
        _ => random.choose(&[1, 2, 2, 2, 2, 3, 3, 3, 3, 4, 4, 5, 6]),
    }
}

pub fn matrix(random: &mut Random, n: usize, style: Style) -> Matrix {
    matrix_of(random, n, style)
}

/// Over any record.
pub fn matrix_of<T: Record<f64>>(random: &mut Random, n: usize, style: Style) -> Matrix<T> {
    let mut matrix = Matrix { n, entries: vec![] };
    let common = [1.0, 49.0, 0.1][random.below(3)];
    for r in 0..n {
        for c in 0..n {
            let re = real(random, style, r, c, common);
            matrix.entries.push(record(re, || slope(random)));
        }
    }
    match style {
        EqualRows if n > 1 => equal_rows(random, &mut matrix),
        OneEdge if n > 0 => {
            let place = random.below(n * n);
            matrix.entries[place] = with_re(matrix.entries[place], edge(random));
        }
        Sorted => (0..n).for_each(|r| {
            matrix.entries[r * n + r] = with_re(matrix.entries[r * n + r], r as f64);
        }),
        _ => {}
    }
    matrix
}

fn real(random: &mut Random, style: Style, r: usize, c: usize, common: f64) -> f64 {
    let diagonal = r == c;
    match style {
        Moderate | EqualRows | OneEdge => random.scaled(-4, 4),
        Whole => random.small(3),
        Signs => {
            if random.chance(50) {
                common
            } else {
                -common
            }
        }
        FortyNine => 49.0 * (1 + random.below(2)) as f64,
        Edges => edge(random),
        Wide => random.scaled(-300, 300),
        Bits => random.bits(),
        Diagonal | Sorted if !diagonal => {
            if random.chance(50) {
                0.0
            } else {
                -0.0
            }
        }
        Diagonal | Sorted => random.small(9),
        Repeated if diagonal => 2.0,
        Repeated => common,
        Vanishing if diagonal => random.small(3),
        Vanishing => random.scaled(-600, -530),
        Overflowing if diagonal => random.scaled(0, 600),
        Overflowing => random.scaled(500, 600),
        Faint if diagonal => random.small(3),
        Faint => random.scaled(-58, -48),
        NegativeZeros if diagonal => -0.0,
        NegativeZeros => {
            if random.chance(30) {
                1.0
            } else {
                -0.0
            }
        }
    }
}

fn edge(random: &mut Random) -> f64 {
    f64::from_bits(random.choose(&crate::pool::EDGE_WORDS))
}

fn slope(random: &mut Random) -> f64 {
    match random.below(12) {
        0 => edge(random),
        1 | 2 => 0.0,
        3..6 => random.small(3),
        _ => random.scaled(-4, 4),
    }
}

/// One row becomes another, in real parts.
fn equal_rows<T: Record<f64>>(random: &mut Random, matrix: &mut Matrix<T>) {
    let n = matrix.n;
    let from = random.below(n);
    let to = (from + 1 + random.below(n - 1)) % n;
    for c in 0..n {
        let re = matrix.entries[from * n + c].parts()[0];
        matrix.entries[to * n + c] = with_re(matrix.entries[to * n + c], re);
    }
}

/// Singular at exactly this column: rows of an upper triangle in any order, whose diagonal has a
/// zero there. Slopes are as anywhere.
pub fn singular<T: Record<f64>>(random: &mut Random, n: usize, column: usize) -> Matrix<T> {
    let mut rows: Vec<Entries<T>> =
        (0..n).map(|r| (0..n).map(|c| triangle_entry(random, r, c, column)).collect()).collect();
    random.shuffle(&mut rows);
    Matrix { n, entries: rows.concat() }
}

fn triangle_entry<T: Record<f64>>(random: &mut Random, r: usize, c: usize, column: usize) -> T {
    let zero = if random.chance(50) { 0.0 } else { -0.0 };
    let re = match (r > c, r == c) {
        (true, _) => zero,
        (_, true) if c == column => zero,
        (_, true) => 1.0 + random.small(3).abs(),
        _ => random.small(3),
    };
    record(re, || random.small(3))
}

pub fn vector<T: Record<f64>>(random: &mut Random, n: usize) -> Entries<T> {
    let re = |random: &mut Random| match random.below(6) {
        0 => edge(random),
        1 | 2 => random.small(3),
        _ => random.scaled(-4, 4),
    };
    (0..n).map(|_| record(re(random), || slope(random))).collect()
}

/// Factors that LU did not make: any entries, zeros on the diagonal among them, any order, and any
/// swap count of the order's parity.
pub fn lent<T: Record<f64>>(random: &mut Random, n: usize, style: Style) -> Factors<T> {
    let mut entries: Entries<T> = matrix_of(random, n, style).entries;
    for r in 0..n {
        if random.chance(15) {
            let zero = if random.chance(50) { 0.0 } else { -0.0 };
            entries[r * n + r] = with_re(entries[r * n + r], zero);
        }
    }
    let mut order: Vec<usize> = (0..n).collect();
    random.shuffle(&mut order);
    let odd = usize::from(is_odd(&order));
    let swaps = odd + 2 * random.below(if odd == 1 { 16 } else { 17 });
    Factors { n, entries, order, swaps }
}

fn is_odd(order: &[usize]) -> bool {
    let before = |i: usize| order[..i].iter().filter(|x| **x > order[i]).count();
    (0..order.len()).map(before).sum::<usize>() % 2 == 1
}

/// Matrices that show a rule of LU by themselves; every slope of an entry is the second number.
pub fn explicit<T: Record<f64>>() -> Vec<Matrix<T>> {
    let tiny = f64::from_bits(1);
    let large = 2f64.powi(1023);
    let nan = f64::NAN;
    let inf = f64::INFINITY;
    matrices(&[
        &[],
        &[(0.0, 1.0)],
        &[(-0.0, 1.0)],
        &[(nan, 1.0)],
        &[(inf, 1.0)],
        &[(tiny, nan)],
        &[(0.0, 1.0), (2.0, 0.0), (1.0, 0.0), (0.0, 0.0)],
        &[(49.0, 0.0); 4],
        &[(1.0, 0.0), (2.0, 0.0), (1.0, 0.0), (2.0, 0.0)],
        &[(tiny, 0.0), (1.0, 0.0), (0.0, 0.0), (1.0, 0.0)],
        &[(nan, 0.0), (1.0, 0.0), (1.0, 0.0), (nan, 0.0)],
        &[(inf, 0.0), (1.0, 0.0), (inf, 0.0), (1.0, 0.0)],
        &[(1.5 * large, 0.0), (1.0, 0.0), (1.5 * large, 0.0), (1.0, 0.0)],
        &[(1.0, 0.0), (0.0, 0.0), (-1.0, 0.0), (1.0, 0.0)],
        &[(-1.0, 0.0), (0.0, 0.0), (1.0, 0.0), (1.0, 0.0)],
    ])
}

/// Matrices that show a rule of Jacobi by themselves.
pub fn explicit_symmetric() -> Vec<Matrix> {
    let tiny = f64::from_bits(1);
    let faint = 2f64.powi(-600);
    let huge = 2f64.powi(600);
    let nan = f64::NAN;
    matrices(&[
        &[(-0.0, -0.0)],
        &[(nan, nan)],
        &[(3.0, 0.0), (0.0, 0.0), (0.0, 0.0), (1.0, 0.0)],
        &[(2.0, 0.0), (1.0, 0.0), (99.0, 0.0), (2.0, 0.0)],
        &[(2.0, 1.0), (1.0, 2.0), (nan, nan), (2.0, 3.0)],
        &[(1.0, 0.0), (faint, 0.0), (faint, 0.0), (2.0, 0.0)],
        &[(1.0, 0.0), (huge, 0.0), (huge, 0.0), (2.0, 0.0)],
        &[(1.0, 0.0), (nan, 0.0), (0.0, 0.0), (2.0, 0.0)],
        &[(1.0, 0.0), (0.0, 1.0), (0.0, 0.0), (2.0, 0.0)],
        &[(-0.0, -0.0), (1.0, 0.0), (0.0, 0.0), (-0.0, -0.0)],
        &[(nan, 0.0), (0.0, 0.0), (0.0, 0.0), (1.0, 0.0)],
        // theta is zero if half of the difference is taken first, and turns a slope if not
        &[(0.0, 0.0), (2f64.powi(-511), 0.0), (0.0, 0.0), (tiny, 2f64.powi(588))],
        // squares summed by column lie on the other side of the first entry
        &SQUARES.map(by_words),
        // an entry that is cleared late: its slope goes too
        &CLEARED.map(by_words),
    ])
}

fn by_words((re, eps): (u64, u64)) -> (f64, f64) {
    (f64::from_bits(re), f64::from_bits(eps))
}

/// Found by search, as the next: the part above the diagonal of 3 by 3.
#[rustfmt::skip]
const SQUARES: [(u64, u64); 9] = [
    (0x3ff0000000000000, 0x3ff0000000000000), (0x3ff7267a66b2d613, 0x3ff0000000000000),
    (0x40074f70b4e54b88, 0x4000000000000000),
    (0, 0), (0x4000000000000000, 0x3fe0000000000000), (0x4006fd3b1c73ff98, 0x3ff0000000000000),
    (0, 0), (0, 0), (0x4010000000000000, 0x3ff0000000000000),
];

#[rustfmt::skip]
const CLEARED: [(u64, u64); 16] = [
    (0x3ffbdc0ac9a34608, 0x409c89e6fdfac668), (0xbff7ff40246a1274, 0x4287600765d161d4),
    (0x3fc36757a560cf56, 0x409b22d4fb6cf6f8), (0xbefdca009d5e4b84, 0xc001232592a6e66b),
    (0, 0), (0x3fb5186ec8a67840, 0x3ff9f477959fc1a0), (0x3ff16a0b242ebb6c, 0x4276b68a954b4e90),
    (0x4000000000000000, 0x426343aa08afb790),
    (0, 0), (0, 0), (0xc008000000000000, 0xc07fb713fac112c0),
    (0xc008000000000000, 0xc0928db264e5ed7b),
    (0, 0), (0, 0), (0, 0), (0xbf1653d96d1b1fc0, 0xc00408219656687a),
];

fn matrices<T: Record<f64>>(all: &[&[(f64, f64)]]) -> Vec<Matrix<T>> {
    let matrix = |entries: &&[(f64, f64)]| Matrix {
        n: entries.len().isqrt(),
        entries: entries.iter().map(|(re, eps)| record(*re, || *eps)).collect(),
    };
    all.iter().map(matrix).collect()
}
