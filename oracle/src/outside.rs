//! Which outside functions the original calls, beside document 01's list.
use crate::functions::FUNCTIONS;
use crate::matrix_requests::{Style, matrix};
use crate::original::Dual;
use crate::original::linalg::{LU, jacobi_eigenvalue};
use crate::random::Random;
use crate::records::Called;
use crate::supplied::{Outside, Supplied, with_supplied};
use nalgebra::{Dyn, OMatrix, OVector, U1};

/// Prints the table; how many functions call something else than the list says. That each call is
/// at the argument that document 01 names was checked call by call.
pub fn print(called: &Called) -> usize {
    let mut different = 0;
    for description in FUNCTIONS {
        let mut listed = description.outside();
        listed.sort();
        let mut calls: Vec<Outside> =
            called.get(description.name).into_iter().flatten().copied().collect();
        let constant = ["exp2", "log2"].contains(&description.name);
        calls.retain(|outside| !(constant && *outside == Outside::Ln));
        let agrees = calls == listed;
        different += usize::from(!agrees);
        if !(agrees && listed.is_empty()) {
            let verdict = if agrees { "agrees" } else { "DIFFERS" };
            let note = if constant { " and ln at 2, a constant" } else { "" };
            println!("{verdict:8}{:10} calls {calls:?}{note}, listed {listed:?}", description.name);
        }
    }
    println!("outside functions: {} functions run, {different} differ", FUNCTIONS.len());
    different
}

/// LU, solve, determinant and inverse call nothing outside; Jacobi only squares real parts by
/// `powi`, which is one multiplication.
pub fn check_matrices() {
    let mut random = Random::new(1, "outside");
    for n in 1..8 {
        let entries = matrix(&mut random, n, Style::Moderate).entries;
        let entries: Vec<Dual<Supplied>> =
            entries.iter().map(|e| Dual { re: Supplied(e.re), eps: Supplied(e.eps) }).collect();
        let square = || OMatrix::from_iterator_generic(Dyn(n), Dyn(n), entries.iter().copied());
        let column = OVector::from_iterator_generic(Dyn(n), U1, entries[..n].iter().copied());
        let (_, calls) = with_supplied(&[], || {
            let factors = LU::new(square()).expect("not singular");
            (factors.solve(&column), factors.determinant(), factors.inverse())
        });
        assert!(calls.is_empty(), "{calls:?}");
        let (_, calls) = with_supplied(&[], || jacobi_eigenvalue(square(), 200));
        let squares = |x: f64| x.powi(2).to_bits() == (x * x).to_bits();
        let square_of = |call: &crate::supplied::Call| {
            call.outside == Outside::Powi && call.arguments[1] == 2.0 && squares(call.arguments[0])
        };
        assert!(calls.iter().all(square_of), "{calls:?}");
        assert_eq!(n > 1, !calls.is_empty());
    }
    println!(
        "outside functions: LU, solve, determinant and inverse call none, Jacobi squares alone"
    );
}
