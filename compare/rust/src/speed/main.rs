//! The time of the port's functions beside the original Rust's, in one process on the same inputs,
//! once both have given the same words. docs/SPEED.md says what is counted. The argument, where
//! there is one, names a file for one of the Matrix Market texts, so that others can be timed on it.
mod case;
mod inputs;
mod market;
mod plain_market;
mod port;
mod records;
mod timing;

use case::{Case, LIMIT};
use compare::original::linalg::{LU, jacobi_eigenvalue};
use compare::random::Random;
use compare::record::{DualKind, HyperDualKind};
use evindrast::exports;
use inputs::{Input, Square};
use market::Texts;
use port::Port;
use std::hint::black_box;
use timing::{Times, in_turn};

const SIZES: [usize; 5] = [2, 4, 8, 16, 32];

/// Inputs of each size.
const INPUTS: usize = 16;

fn main() {
    let mut random = Random::new(1, "speed");
    let roots = inputs::roots(&mut random, 4096);
    let dual = cases::<DualKind>(&mut random);
    let hyperdual = cases::<HyperDualKind>(&mut random);
    let pairs = records::all(&mut random);
    let texts = texts(&mut Random::new(1, "speed, texts"));
    roots
        .iter()
        .for_each(|x| assert_eq!(exports::sqrt(*x).to_bits(), x.sqrt().to_bits(), "root of {x}"));
    let compared = roots.len()
        + dual
            .iter()
            .flatten()
            .map(|case| case.compare() + case.compare_eigenvalues())
            .sum::<usize>()
        + hyperdual.iter().flatten().map(Case::compare).sum::<usize>()
        + pairs.iter().map(|pair| pair.compared).sum::<usize>();
    let (floats, bytes) = texts
        .iter()
        .map(Texts::compare)
        .fold((0, 0), |(floats, bytes), (more, again)| (floats + more, bytes + again));
    println!("{} words and {bytes} bytes compared, 0 different", compared + floats);

    println!("| function | n | port, ns | Rust, ns | ratio | half of the runs | fastest runs |");
    println!("|---|---:|---:|---:|---:|---|---:|");
    print("root", "", &root(&roots));
    for pair in pairs {
        print(&format!("product, {}", pair.name), "", &(pair.product)());
        print(&format!("quotient, {}", pair.name), "", &(pair.quotient)());
    }
    print_all("", &functions(), &dual);
    print_all("", &[("Jacobi", jacobi)], &dual);
    print_all("HyperDual: ", &functions(), &hyperdual);
    print_texts(&texts);
}

/// The Matrix Market texts of every size from 4 on.
fn texts(random: &mut Random) -> Vec<Texts> {
    SIZES[1..].iter().map(|n| Texts::new(random, *n)).collect()
}

/// Their rows; the first text of the largest size goes to the file that the argument names.
fn print_texts(texts: &[Texts]) {
    for (name, times) in market::ROWS {
        texts.iter().for_each(|texts| print(name, &texts.n.to_string(), &times(texts)));
    }
    let largest = &texts[texts.len() - 1];
    print(market::SYMMETRIC.0, &largest.n.to_string(), &market::SYMMETRIC.1(largest));
    if let Some(path) = std::env::args().nth(1) {
        std::fs::write(&path, &largest.general[0]).unwrap_or_else(|why| panic!("{path}: {why}"));
    }
}

/// The inputs of every size.
fn cases<K: Port>(random: &mut Random) -> Vec<Vec<Case<K>>> {
    let of_size = |n: &usize| (0..INPUTS).map(|_| Case::new(Input::new::<K>(random, *n))).collect();
    SIZES.iter().map(of_size).collect()
}

type Timed<K> = fn(&[Case<K>]) -> Times;

fn functions<K: Port>() -> [(&'static str, Timed<K>); 6] {
    [
        ("LU", lu),
        ("LU, Rust's copy counted", lu_with_copy),
        ("solve", solve),
        ("determinant", determinant),
        ("LU, then determinant", lu_then_determinant),
        ("inverse", inverse),
    ]
}

fn print_all<K: Port>(kind: &str, functions: &[(&str, Timed<K>)], cases: &[Vec<Case<K>>]) {
    for (name, times) in functions {
        let name = format!("{kind}{name}");
        cases.iter().for_each(|cases| print(&name, &cases[0].n.to_string(), &times(cases)));
    }
}

fn print(name: &str, n: &str, times: &Times) {
    let Times { port, rust, ratio: [low, middle, high], fastest } = times;
    print!("| {name} | {n} | {port:.1} | {rust:.1} | {middle:.2} ");
    println!("| {low:.2} to {high:.2} | {fastest:.2} |");
}

fn root(numbers: &[f64]) -> Times {
    let number = |i: usize| black_box(numbers[i % numbers.len()]);
    in_turn(number, |x| _ = black_box(exports::sqrt(x)), number, |x: f64| _ = black_box(x.sqrt()))
}

/// The cases in turn, each hidden from the compiler before it is lent.
fn lend<'a, K: Port>(cases: &'a [Case<K>]) -> impl Fn(usize) -> &'a Case<K> {
    move |i| black_box(&cases[i % cases.len()])
}

fn lu_port<'a, K: Port>(cases: &'a [Case<K>]) -> impl FnMut(&'a Case<K>) {
    let n = cases[0].n;
    let (mut factors, mut order, mut swaps) = (vec![0.0; cases[0].a.len()], vec![0; n], 0);
    move |case| _ = black_box(K::lu(n, &case.a, &mut factors, &mut order, &mut swaps))
}

fn lu<K: Port>(cases: &[Case<K>]) -> Times {
    let owned = |i: usize| black_box(cases[i % cases.len()].rust_a.clone());
    let rust = |a: Square<K>| _ = black_box(LU::new(a));
    in_turn(lend(cases), lu_port(cases), owned, rust)
}

fn lu_with_copy<K: Port>(cases: &[Case<K>]) -> Times {
    let rust = |case: &Case<K>| _ = black_box(LU::new(case.rust_a.clone()));
    in_turn(lend(cases), lu_port(cases), lend(cases), rust)
}

fn solve<K: Port>(cases: &[Case<K>]) -> Times {
    let mut x = vec![0.0; cases[0].b.len()];
    in_turn(
        lend(cases),
        |case| {
            let Case { n, factors, order, b, .. } = case;
            black_box(K::solve(*n, factors, order, b, &mut x));
        },
        lend(cases),
        |case| _ = black_box(case.rust_lu.solve(&case.rust_b)),
    )
}

fn determinant<K: Port>(cases: &[Case<K>]) -> Times {
    let mut det = vec![0.0; K::PARTS];
    in_turn(
        lend(cases),
        |case| {
            let Case { n, factors, order, swaps, .. } = case;
            black_box(K::determinant(*n, factors, order, *swaps, &mut det));
        },
        lend(cases),
        |case| _ = black_box(case.rust_lu.determinant()),
    )
}

/// From the matrix to its determinant: a determinant is taken from factors that LU made.
fn lu_then_determinant<K: Port>(cases: &[Case<K>]) -> Times {
    let n = cases[0].n;
    let (mut factors, mut order, mut swaps) = (vec![0.0; cases[0].a.len()], vec![0; n], 0);
    let mut det = vec![0.0; K::PARTS];
    in_turn(
        lend(cases),
        |case| {
            black_box(K::lu(n, &case.a, &mut factors, &mut order, &mut swaps));
            black_box(K::determinant(n, &factors, &order, swaps, &mut det));
        },
        |i| black_box(cases[i % cases.len()].rust_a.clone()),
        |a: Square<K>| _ = black_box(LU::new(a).map(|lu| lu.determinant())),
    )
}

fn inverse<K: Port>(cases: &[Case<K>]) -> Times {
    let mut out = vec![0.0; cases[0].a.len()];
    in_turn(
        lend(cases),
        |case| {
            let Case { n, factors, order, .. } = case;
            black_box(K::inverse(*n, factors, order, &mut out));
        },
        lend(cases),
        |case| _ = black_box(case.rust_lu.inverse()),
    )
}

fn jacobi(cases: &[Case<DualKind>]) -> Times {
    let n = cases[0].n;
    let (mut values, mut vectors) = (vec![0.0; n * 2], vec![0.0; n * n * 2]);
    let mut sweeps = 0;
    in_turn(
        lend(cases),
        |case| {
            let (a, values, vectors) = (&case.symmetric, &mut values, &mut vectors);
            black_box(exports::jacobi_eigenvalue(n, a, LIMIT, values, vectors, &mut sweeps));
        },
        |i| black_box(cases[i % cases.len()].rust_symmetric.clone()),
        |a: Square<DualKind>| _ = black_box(jacobi_eigenvalue(a, LIMIT)),
    )
}
