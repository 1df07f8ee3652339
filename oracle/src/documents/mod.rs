//! Every number that documents 01 and 02 give, the traps of the design page, and the differences
//! found, run on the Rust.
mod document_01;
mod document_02;
mod findings;
mod traps;

use crate::matrices::{Entry, Factors, lu};
use crate::original::{Dual, Dual3, HyperHyperDual};
use crate::record::Record;
use crate::supplied::{Outside, Supplied, with_supplied};
use crate::words::{hex_line, words};
use std::hint::black_box;

const NAN: f64 = f64::NAN;
const INF: f64 = f64::INFINITY;

/// One claim of a document beside what the Rust gives.
#[derive(Clone)]
struct Row {
    place: &'static str,
    claim: &'static str,
    wanted: String,
    got: String,
}

/// Prints the tables; the number of rows that differ.
pub fn print() -> usize {
    table("document 01", &document_01::rows())
        + table("document 02", &document_02::rows())
        + table("traps", &traps::rows())
        + table("differences found", &findings::rows())
}

fn table(name: &str, rows: &[Row]) -> usize {
    for row in rows {
        let verdict = if row.wanted == row.got { "agrees" } else { "DIFFERS" };
        println!("{verdict:8}{:10} {}: {}", row.place, row.claim, row.got);
        if row.wanted != row.got {
            println!("{:18} wanted {}", "", row.wanted);
        }
    }
    let different = rows.iter().filter(|row| row.wanted != row.got).count();
    println!("{name}: {} numbers run, {different} differ", rows.len());
    different
}

/// A row whose two sides are floats.
fn row(place: &'static str, claim: &'static str, wanted: &[f64], got: &[f64]) -> Row {
    let [wanted, got] = [wanted, got].map(|floats| hex_line(&words(floats)));
    Row { place, claim, wanted, got }
}

/// A row whose two sides are anything that prints.
fn said<T: std::fmt::Debug>(
    place: &'static str,
    claim: &'static str,
    wanted: T,
    got: T,
) -> Row {
    Row { place, claim, wanted: format!("{wanted:?}"), got: format!("{got:?}") }
}

/// Made at run time: the compiler must not work the answer out.
fn dual(re: f64, eps: f64) -> Entry {
    black_box(Dual { re, eps })
}

/// The start of a third derivative, made at run time too.
fn cubic(re: f64) -> Dual3<f64> {
    black_box(Dual3::of(&[re, 1.0, 0.0, 0.0]))
}

/// The same by three variables that are one.
fn mixed(re: f64) -> HyperHyperDual<f64> {
    black_box(HyperHyperDual::of(&[re, 1.0, 1.0, 1.0, 0.0, 0.0, 0.0, 0.0]))
}

/// A record over the supplied part type, its function called with these values.
fn with<R: Record<Supplied>>(
    values: &[(Outside, f64)],
    of: &[f64],
    f: impl Fn(R) -> R,
) -> Vec<f64> {
    with_supplied(values, || f(R::of(of)).parts()).0
}

fn plain(real: &[f64]) -> Vec<Entry> {
    real.iter().map(|re| dual(*re, 0.0)).collect()
}

fn flat(entries: &[Entry]) -> Vec<f64> {
    entries.iter().flat_map(|e| [e.re, e.eps]).collect()
}

fn factored(n: usize, entries: &[Entry]) -> Factors {
    lu(n, entries).expect("not singular")
}
