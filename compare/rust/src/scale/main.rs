//! The port, through its static library and the crate over it, against the original Rust in one
//! process: `scale CASES SEED` compares so many cases of each function of each record, and of each
//! matrix function, and prints what was compared and what differed. All NaNs of the Rust count as
//! one.
mod counts;
mod matrices;
mod port;
mod records;
mod refusals;
mod series;

use counts::Counts;
use std::process::ExitCode;

fn main() -> ExitCode {
    let arguments: Vec<String> = std::env::args().skip(1).collect();
    let [cases, seed] = &arguments[..] else {
        eprintln!("scale CASES SEED");
        return ExitCode::FAILURE;
    };
    let number = |text: &str| text.parse::<usize>().expect("a whole number");
    let (cases, seed) = (number(cases), number(seed) as u64);
    let mut counts = Counts::default();
    records::all(&mut counts, cases, seed);
    series::all(&mut counts, 4 * cases, seed);
    matrices::all(&mut counts, 4 * cases, seed);
    refusals::all(&mut counts, 4 * cases, seed);
    if counts.print() == 0 { ExitCode::SUCCESS } else { ExitCode::FAILURE }
}
