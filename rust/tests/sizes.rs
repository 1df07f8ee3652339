//! The crate's own functions with sizes, lengths, places and exponents of all sorts: each gives its
//! refusal or panics with the words that its documentation has, and nothing ends the program.
mod random;

use evindrast::{
    jacobi_eigenvalue, supplied, Dual2_64, Dual3_64, Dual64, DualNum, Entry, Function, HyperDual64,
    HyperHyperDual64, Matrix, Refusal, LU,
};
use random::{parity, Random};
use std::panic::{catch_unwind, set_hook, take_hook, UnwindSafe};

/// The words that a call panics with.
fn panics<T>(call: impl FnOnce() -> T + UnwindSafe) -> Option<String> {
    let caught = catch_unwind(call).err()?;
    let text = caught.downcast_ref::<String>().map(String::as_str);
    let text = text.or_else(|| caught.downcast_ref::<&str>().copied());
    Some(text.unwrap_or("no words").to_string())
}

fn number<T>(result: Result<T, Refusal>) -> u32 {
    result.map_or_else(Refusal::number, |_| 0)
}

const TOO_LARGE: &str = "refused 1: a matrix has at most 32 rows";

/// What makes a matrix.
fn makers<D: DualNum + UnwindSafe>(random: &mut Random) {
    let n = random.size();
    let large = n > 32;
    assert_eq!(number(Matrix::<D>::try_zeros(n)), u32::from(large), "{n}");
    assert_eq!(number(Matrix::try_from_fn(n, |_, _| D::ONE)), u32::from(large), "{n}");
    let words = large.then(|| TOO_LARGE.to_string());
    assert_eq!(panics(|| Matrix::<D>::zeros(n)), words, "{n}");
    assert_eq!(panics(|| Matrix::from_fn(n, |_, _| D::ONE)), words, "{n}");

    let near = n.min(40);
    let count = random.length(near * near);
    let wanted = if large { 1 } else { 2 * u32::from(count != n * n) };
    assert_eq!(number(Matrix::from_entries(n, vec![D::ONE; count])), wanted, "{n}, {count}");

    let rows: Vec<Vec<D>> = (0..near).map(|_| vec![D::ONE; random.length(near)]).collect();
    let ragged = rows.iter().any(|row| row.len() != near);
    let wanted = if near > 32 { 1 } else { 2 * u32::from(ragged) };
    assert_eq!(number(Matrix::try_from_rows(&rows)), wanted, "{near} rows");
    assert_eq!(
        number(Matrix::try_from_rows(&vec![vec![D::ONE; near]; near])),
        u32::from(near > 32)
    );
}

/// What reads a place of a matrix.
fn places<D: DualNum + UnwindSafe + std::panic::RefUnwindSafe>(random: &mut Random) {
    let n = random.below(33);
    let a = Matrix::from_fn(n, |r, c| D::from_re((r * n + c) as f64));
    let (r, c) = (random.size(), random.size());
    let place = |what: &str, number: usize| {
        (number >= n).then(|| format!("{what} {number} of {n}: they are counted from 0"))
    };
    assert_eq!(panics(|| a.row(r).len()), place("row", r));
    assert_eq!(panics(|| a.column(c).len()), place("column", c));
    let words = place("row", r).or_else(|| place("column", c));
    assert_eq!(panics(|| a[(r, c)].re()), words);
    let written = panics(|| {
        let mut a = a.clone();
        a[(r, c)] = D::ONE;
    });
    assert_eq!(written, words);
    if words.is_none() {
        let re = (r * n + c) as f64;
        assert!(a[(r, c)] == re && a.row(r)[c] == re && a.column(c)[r] == re);
    }
}

/// LU, and what it gives.
fn linear<D: Entry>(random: &mut Random) {
    let n = random.below(33);
    let singular = n > 0 && random.below(4) == 0;
    let diagonal = |r, c| if r == c && !(singular && c == n - 1) { 100.0 } else { 1.0 };
    let a = Matrix::from_fn(n, |r, c| match singular {
        true if c == n - 1 => D::ZERO,
        _ => D::from_re(diagonal(r, c)),
    });
    match LU::new(&a) {
        Err(refusal) => assert!(singular && refusal == Refusal::Singular { column: n - 1 }),
        Ok(lu) => {
            assert!(!singular);
            let length = random.length(n);
            let wanted = 2 * u32::from(length != n);
            assert_eq!(number(lu.solve(&vec![D::ONE; length])), wanted);
            assert!(lu.inverse().n() == n && lu.determinant().re() > 0.0);
        }
    }
    let length = random.length(n);
    let (order, swaps) = (random.order(length), random.swaps());
    let wanted = match parity(&order) {
        _ if length != n => 2,
        None => 7,
        Some(parity) if swaps > 32 || swaps % 2 != parity => 8,
        Some(_) => 0,
    };
    let lu = LU::from_parts(a, order.clone(), swaps);
    assert_eq!(number(lu.as_ref().map_err(|refusal| *refusal)), wanted, "{n} {order:?} {swaps}");
    if let Ok(lu) = lu {
        assert!(lu.solve(&vec![D::ONE; n]).is_ok() && lu.inverse().n() == n);
        lu.determinant();
    }
}

fn eigenvalues(random: &mut Random) {
    let n = random.below(9);
    let a = Matrix::from_fn(n, |r, c| Dual64::from_re(if r == c { 3.0 } else { 1.0 }));
    let limit = random.choose(&[0, 1, 50, 1000, 1001, 1 << 32, usize::MAX]);
    let wanted = match n {
        0 => 3,
        _ if limit > 1000 => 4,
        _ => 0,
    };
    assert_eq!(number(jacobi_eigenvalue(&a, limit)), wanted, "{n} {limit}");
}

/// Functions by name, with any number of records and floats, and powers with any exponent.
fn functions<D: DualNum + UnwindSafe>(random: &mut Random) {
    let function = random.choose(Function::ALL);
    let records = vec![D::from_re(0.5); random.below(5)];
    let floats = vec![0.25; random.below(4)];
    let exponent = random.word() as i32;
    let given = number(supplied::record(function, &records, exponent, &floats));
    assert!(matches!(given, 0 | 2) || (given, function) == (5, Function::Powi), "{function:?}");
    let given = number(supplied::pair(function, &records, &floats));
    let fits = (function, records.len(), floats.len()) == (Function::SinCos, 1, 2);
    assert_eq!(given, if fits { 0 } else { 2 }, "{function:?}");
    let given = number(supplied::truth(function, &records));
    assert!(matches!(given, 0 | 2), "{function:?}");
    let parts = vec![0.5; random.below(10)];
    assert_eq!(number(D::from_parts(&parts)), 2 * u32::from(parts.len() != D::PARTS));

    let exponent = random.choose(&[exponent, exponent % 2000, i32::MIN, i32::MAX, 1024, -1025]);
    let fits = (-1024..=1024).contains(&exponent);
    let words = "refused 5: powi's exponent is outside -1,024..1,024".to_string();
    assert_eq!(panics(|| D::from_re(1.5).powi(exponent)), (!fits).then_some(words));
    assert_eq!(number(D::from_re(1.5).try_powi(exponent)), if fits { 0 } else { 5 });
}

/// Three records, of an iterator that promises as many as can be counted, and goes on after its end.
struct Liar<D>(D, usize);

impl<D: DualNum> Iterator for Liar<D> {
    type Item = D;

    fn next(&mut self) -> Option<D> {
        self.1 += 1;
        (self.1 != 4 && self.1 < 10).then_some(self.0)
    }

    fn size_hint(&self) -> (usize, Option<usize>) {
        (usize::MAX, None)
    }
}

fn runs<D: DualNum>() {
    let x = D::from_re(1.5);
    assert_eq!(Liar(x, 0).sum::<D>().parts(), (x + x + x).parts());
    assert_eq!(Liar(x, 0).product::<D>().parts(), (x * x * x).parts());
    // longer than what is handed to the library in one call
    let long = (0..70_000).map(|i| D::from_re(1.0 + f64::from(i) * 1e-9));
    let (sum, product) = long.clone().fold((D::ZERO, D::ONE), |(s, p), x| (s + x, p * x));
    assert_eq!(long.clone().sum::<D>().parts(), sum.parts());
    assert_eq!(long.product::<D>().parts(), product.parts());
}

/// One test, as it silences panics while it runs.
#[test]
fn nothing_ends_the_program() {
    let before = take_hook();
    set_hook(Box::new(|_| {}));
    let undocumented = panics(|| {
        let mut random = Random::new(0xc0de);
        for _ in 0..1000 {
            makers::<Dual64>(&mut random);
            makers::<HyperHyperDual64>(&mut random);
            places::<Dual2_64>(&mut random);
            places::<Dual64>(&mut random);
            linear::<Dual64>(&mut random);
            linear::<HyperDual64>(&mut random);
            eigenvalues(&mut random);
            functions::<Dual64>(&mut random);
            functions::<Dual2_64>(&mut random);
            functions::<Dual3_64>(&mut random);
            functions::<HyperDual64>(&mut random);
            functions::<HyperHyperDual64>(&mut random);
        }
        runs::<Dual64>();
        runs::<HyperHyperDual64>();
    });
    set_hook(before);
    assert_eq!(undocumented, None);
}
