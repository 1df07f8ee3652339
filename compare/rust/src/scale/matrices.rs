//! LU, solve, determinant and inverse over the records that have them, and Jacobi over `Dual`.
use crate::counts::{Answer, Counts, hex};
use compare::matrices::{self, Factors};
use compare::matrix_requests::{
    self as requests, GENERAL, LIMITS, Matrix, SYMMETRIC, explicit, explicit_symmetric,
};
use compare::random::Random;
use compare::record::{DualKind, HyperDualKind, Kind, Record};
use compare::words::words;
use evindrast::{Dual64, DualNum, Entry, HyperDual64, LU, Refusal, exports, jacobi_eigenvalue};

/// LU into lent buffers of floats.
type LentLu = fn(usize, &[f64], &mut [f64], &mut [usize], &mut usize) -> u32;

pub fn all(counts: &mut Counts, cases: usize, seed: u64) {
    over::<DualKind, Dual64>(counts, cases, seed, exports::lu);
    over::<HyperDualKind, HyperDual64>(counts, cases, seed, exports::hyperdual_lu);
    eigenvalues(counts, cases, seed);
}

fn over<K: Kind, D: Entry>(counts: &mut Counts, cases: usize, seed: u64, lent_lu: LentLu) {
    let mut random = Random::new(seed, &format!("matrices of {}", K::NAME));
    for matrix in explicit() {
        factoring::<K, D>(counts, &mut random, &matrix, lent_lu);
    }
    for i in 0..cases {
        let n = requests::size(&mut random, i);
        let style = GENERAL[i % GENERAL.len()];
        let matrix = requests::matrix_of(&mut random, n, style);
        factoring::<K, D>(counts, &mut random, &matrix, lent_lu);
        let lent = requests::lent(&mut random, n, style);
        from_factors::<K, D>(counts, &mut random, &lent);
        if i % 8 == 0 && n > 0 {
            let column = random.below(n);
            let matrix = requests::singular(&mut random, n, column);
            factoring::<K, D>(counts, &mut random, &matrix, lent_lu);
        }
    }
}

/// LU, and what its factors give.
fn factoring<K: Kind, D: Entry>(
    counts: &mut Counts,
    random: &mut Random,
    matrix: &Matrix<K::Record<f64>>,
    lent_lu: LentLu,
) {
    let rust = matrices::lu(matrix.n, &matrix.entries);
    let answer = Ok(match &rust {
        Ok(factors) => factors_words(&flat(&factors.entries), &factors.order, factors.swaps),
        Err(column) => singular_words(matrix.n, K::PARTS, *column),
    });
    let input = || hex(&words(&flat(&matrix.entries)));
    counts.cell("LU", K::NAME).case(&lu_by_crate::<D, _>(matrix), &answer, input);
    let lent = lu_by_slices(matrix, lent_lu);
    counts.cell("LU into used buffers", K::NAME).case(&lent, &answer, input);
    if let Ok(factors) = rust {
        from_factors::<K, D>(counts, random, &factors);
    }
}

/// The number 0, the swap count, the order and the factors.
fn factors_words(factors: &[f64], order: &[usize], swaps: usize) -> Vec<u64> {
    let order = order.iter().map(|row| *row as u64);
    [0, swaps as u64].into_iter().chain(order).chain(words(factors)).collect()
}

/// What document 01 has LU leave at 6: the column, an order and factors of zeros.
fn singular_words(n: usize, parts: usize, column: usize) -> Vec<u64> {
    let zeros = std::iter::repeat_n(0, n + parts * n * n);
    [6, column as u64].into_iter().chain(zeros).collect()
}

fn lu_by_crate<D: Entry, T: Record<f64>>(matrix: &Matrix<T>) -> Answer {
    match LU::new(&square::<D, T>(matrix.n, &matrix.entries)) {
        Ok(lu) => Ok(factors_words(&floats(lu.factors().entries()), lu.order(), lu.swaps())),
        Err(Refusal::Singular { column }) => Ok(singular_words(matrix.n, D::PARTS, column)),
        Err(refusal) => Err(refusal.number()),
    }
}

fn lu_by_slices<T: Record<f64>>(matrix: &Matrix<T>, lent_lu: LentLu) -> Answer {
    let (n, a) = (matrix.n, flat(&matrix.entries));
    let (mut factors, mut order, mut swaps_or_column) =
        (vec![f64::NAN; a.len()], vec![usize::MAX; n], 77);
    let number = lent_lu(n, &a, &mut factors, &mut order, &mut swaps_or_column);
    let order = order.iter().map(|row| *row as u64);
    let head = [u64::from(number), swaps_or_column as u64];
    Ok(head.into_iter().chain(order).chain(words(&factors)).collect())
}

/// Solve, determinant and inverse, from factors that LU made or from others.
fn from_factors<K: Kind, D: Entry>(
    counts: &mut Counts,
    random: &mut Random,
    factors: &Factors<K::Record<f64>>,
) {
    let Factors { n, entries, order, swaps } = factors;
    let b = requests::vector(random, *n);
    let lu = LU::from_parts(square::<D, _>(*n, entries), order.clone(), *swaps);
    let input = || {
        let words = hex(&words(&flat(&[&entries[..], &b].concat())));
        format!("order {order:?}, {swaps} swaps, factors and right side {words}")
    };
    let of = |work: &dyn Fn(&LU<D>) -> Vec<D>| -> Answer {
        lu.as_ref().map(|lu| words(&floats(&work(lu)))).map_err(|refusal| refusal.number())
    };

    let right: Vec<D> = b.iter().map(record).collect();
    let solved = of(&|lu| lu.solve(&right).expect("n entries"));
    let rust = Ok(words(&flat(&factors.solve(&b))));
    counts.cell("solve", K::NAME).case(&solved, &rust, input);

    let determinant = of(&|lu| vec![lu.determinant()]);
    let rust = Ok(words(&flat(&[factors.determinant()])));
    counts.cell("determinant", K::NAME).case(&determinant, &rust, input);

    let inverse = of(&|lu| lu.inverse().entries().to_vec());
    let rust = Ok(words(&flat(&factors.inverse())));
    counts.cell("inverse", K::NAME).case(&inverse, &rust, input);
}

fn eigenvalues(counts: &mut Counts, cases: usize, seed: u64) {
    let mut random = Random::new(seed, "eigenvalues");
    for (i, matrix) in explicit_symmetric().iter().enumerate() {
        jacobi(counts, matrix, LIMITS[i % LIMITS.len()]);
    }
    for i in 0..cases {
        let n = requests::size(&mut random, i).max(1);
        let matrix = requests::matrix(&mut random, n, SYMMETRIC[i % SYMMETRIC.len()]);
        jacobi(counts, &matrix, LIMITS[i % LIMITS.len()]);
    }
}

fn jacobi(counts: &mut Counts, matrix: &Matrix, limit: usize) {
    let port = jacobi_eigenvalue(&square(matrix.n, &matrix.entries), limit);
    let port = port.map_err(Refusal::number).map(|eigen| {
        let records = [&eigen.values[..], eigen.vectors.entries()].concat();
        [vec![eigen.sweeps as u64], words(&floats(&records))].concat()
    });
    let eigen = matrices::jacobi(matrix.n, &matrix.entries, limit);
    let records = [eigen.values, eigen.vectors].concat();
    let rust = Ok([vec![eigen.sweeps as u64], words(&flat(&records))].concat());
    let input = || format!("limit {limit}, {}", hex(&words(&flat(&matrix.entries))));
    counts.cell("Jacobi", DualKind::NAME).case(&port, &rust, input);
}

fn record<D: DualNum, T: Record<f64>>(entry: &T) -> D {
    D::from_parts(&entry.parts()).expect("as many floats as the record has")
}

fn square<D: DualNum, T: Record<f64>>(n: usize, entries: &[T]) -> evindrast::Matrix<D> {
    let entries = entries.iter().map(record).collect();
    evindrast::Matrix::from_entries(n, entries).expect("n * n entries")
}

fn floats<D: DualNum>(records: &[D]) -> Vec<f64> {
    records.iter().flat_map(|record| record.parts().to_vec()).collect()
}

fn flat<T: Record<f64>>(entries: &[T]) -> Vec<f64> {
    entries.iter().flat_map(|entry| entry.parts()).collect()
}
