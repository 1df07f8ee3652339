//! The answer files of the matrices over `Dual` and over `HyperDual`.
use crate::matrices::{Entry, Factors, entry_words, jacobi, lu};
use crate::matrix_requests::{
    GENERAL, LIMITS, Matrix, SYMMETRIC, explicit, explicit_symmetric, lent, matrix, matrix_of,
    singular, size, vector,
};
use crate::original::HyperDual;
use crate::random::Random;
use crate::record::Record;
use crate::words::hex_line;
use crate::write::{Answers, Run};

/// What the files over a record are called, and how many cases LU and the other three get.
#[derive(Copy, Clone)]
struct Over {
    suffix: &'static str,
    record: &'static str,
    lu: usize,
    factors: usize,
    seed: u64,
}

pub fn all(run: Run) -> Vec<Answers> {
    let (cases, seed) = (run.cases, run.seed);
    let dual = Over { suffix: "", record: "Dual", lu: cases, factors: cases / 2, seed };
    let fewer = cases * 8 / 25;
    let hyperdual =
        Over { suffix: "-hyperdual", record: "HyperDual", lu: fewer, factors: cases / 5, seed };
    let mut files = over::<Entry>(dual);
    files.push(jacobi_file(run));
    files.extend(over::<HyperDual<f64>>(hyperdual));
    files
}

fn over<T: Record<f64>>(over: Over) -> Vec<Answers> {
    vec![lu_file::<T>(over), solve_file::<T>(over), determinant_file::<T>(over), inverse_file::<T>(over)]
}

impl Over {
    fn random(self, name: &str) -> Random {
        Random::new(self.seed, &format!("{name}{}", self.suffix))
    }

    fn file(self, name: &str, about: &str, cases: Vec<String>) -> Answers {
        file(&format!("{name}{}", self.suffix), &format!("{about} over {}.", self.record), cases)
    }
}

/// One record a line.
fn lines<T: Record<f64>>(entries: &[T]) -> Vec<String> {
    entries.iter().map(|entry| hex_line(&entry_words(entry))).collect()
}

/// Two digits an entry; an empty line for none.
fn order_line(order: &[usize]) -> String {
    order.iter().map(|row| format!("{row:02x}")).collect::<Vec<_>>().join(" ")
}

fn file(name: &str, about: &str, cases: Vec<String>) -> Answers {
    let counts = vec![(name.to_string(), cases.len())];
    Answers { name: format!("{name}.txt"), about: about.to_string(), before: vec![], cases, counts }
}

fn lu_file<T: Record<f64>>(over: Over) -> Answers {
    let mut random = over.random("lu");
    let cases = lu_requests::<T>(&mut random, over.lu).iter().map(lu_case).collect();
    over.file("lu", "LU of matrices", cases)
}

/// Those that show a rule, one singular at every column of small sizes and at both ends of the
/// largest (every column of every size in a large run), then each style in turn.
pub fn lu_matrices(random: &mut Random, cases: usize) -> Vec<Matrix> {
    lu_requests(random, cases)
}

fn lu_requests<T: Record<f64>>(random: &mut Random, cases: usize) -> Vec<Matrix<T>> {
    let mut matrices = explicit();
    let largest = if cases < 1000 { 6 } else { 32 };
    for n in 1..=largest {
        matrices.extend((0..n).map(|column| singular(random, n, column)));
    }
    matrices.push(singular(random, 32, 31));
    for i in 0..cases {
        let n = size(random, i);
        matrices.push(matrix_of(random, n, GENERAL[i % GENERAL.len()]));
    }
    matrices
}

fn lu_case<T: Record<f64>>(matrix: &Matrix<T>) -> String {
    let mut text = lines(&matrix.entries);
    let head = match lu(matrix.n, &matrix.entries) {
        Ok(factors) => {
            text.push(order_line(&factors.order));
            text.extend(lines(&factors.entries));
            format!("{:02x} 00 {:02x}", matrix.n, factors.swaps)
        }
        Err(column) => format!("{:02x} 06 {column:02x}", matrix.n),
    };
    text.insert(0, head);
    text.join("\n")
}

/// Factors for the functions that take them: every other made by LU, the rest lent. Which of the two
/// the odd places are changes every 128, so that large ones are of both kinds.
fn factors<T: Record<f64>>(random: &mut Random, cases: usize) -> Vec<Factors<T>> {
    let mut all: Vec<Factors<T>> =
        (explicit().iter()).filter_map(|matrix| lu(matrix.n, &matrix.entries).ok()).collect();
    for i in 0..cases {
        let n = size(random, i);
        let style = GENERAL[i / 2 % GENERAL.len()];
        let made = lu(n, &matrix_of(random, n, style).entries).ok().filter(|_| (i + i / 128) % 2 == 1);
        all.push(made.unwrap_or_else(|| lent(random, n, style)));
    }
    all
}

fn factor_lines<T: Record<f64>>(factors: &Factors<T>) -> Vec<String> {
    let mut text = vec![order_line(&factors.order)];
    text.extend(lines(&factors.entries));
    text
}

fn solve_file<T: Record<f64>>(over: Over) -> Answers {
    let mut random = over.random("solve");
    let case = |factors: &Factors<T>| {
        let b = vector(&mut random, factors.n);
        let mut text = vec![format!("{:02x}", factors.n)];
        text.extend(factor_lines(factors));
        text.extend(lines(&b));
        text.extend(lines(&factors.solve(&b)));
        text.join("\n")
    };
    let all = factors(&mut over.random("solve factors"), over.factors);
    over.file("solve", "Solutions by factors", all.iter().map(case).collect())
}

fn determinant_file<T: Record<f64>>(over: Over) -> Answers {
    let case = |factors: &Factors<T>| {
        let mut text = vec![format!("{:02x} {:02x}", factors.n, factors.swaps)];
        text.extend(factor_lines(factors));
        text.extend(lines(&[factors.determinant()]));
        text.join("\n")
    };
    let all = factors(&mut over.random("determinant factors"), over.factors);
    over.file("determinant", "Determinants by factors", all.iter().map(case).collect())
}

fn inverse_file<T: Record<f64>>(over: Over) -> Answers {
    let case = |factors: &Factors<T>| {
        let mut text = vec![format!("{:02x}", factors.n)];
        text.extend(factor_lines(factors));
        text.extend(lines(&factors.inverse()));
        text.join("\n")
    };
    let all = factors(&mut over.random("inverse factors"), over.factors);
    over.file("inverse", "Inverses by factors", all.iter().map(case).collect())
}

fn jacobi_file(run: Run) -> Answers {
    let mut random = Random::new(run.seed, "jacobi");
    let requests = jacobi_requests(&mut random, run.cases);
    let cases = requests.iter().map(|(matrix, limit)| jacobi_case(matrix, *limit)).collect();
    file("jacobi", "Eigenvalues and eigenvectors over Dual.", cases)
}

/// Matrices that show a rule, then each style in turn, with the limits in turn.
pub fn jacobi_requests(random: &mut Random, cases: usize) -> Vec<(Matrix, usize)> {
    let mut requests: Vec<(Matrix, usize)> = explicit_symmetric()
        .iter()
        .flat_map(|matrix| [0, 1, 200].map(|limit| (matrix.clone(), limit)))
        .collect();
    for i in 0..cases {
        let n = size(random, i).max(1);
        let limit = if i % 64 == 63 { 200 } else { LIMITS[i % LIMITS.len()] };
        requests.push((matrix(random, n, SYMMETRIC[i % SYMMETRIC.len()]), limit));
    }
    requests
}

fn jacobi_case(matrix: &Matrix, limit: usize) -> String {
    let eigen = jacobi(matrix.n, &matrix.entries, limit);
    let mut text = vec![format!(
        "{:02x} {limit:04x} {:04x} {:08x} {:02x}",
        matrix.n,
        eigen.sweeps,
        eigen.rotations,
        u8::from(eigen.settled)
    )];
    text.extend(lines(&matrix.entries));
    text.extend(lines(&eigen.values));
    text.extend(lines(&eigen.vectors));
    text.join("\n")
}
