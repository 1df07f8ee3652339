//! The C header and this crate declare the same functions and give everything the same number.
use evindrast::{exports, jacobi_eigenvalue, Kind, Matrix, Refusal};
use evindrast::{Dual2_64, Dual3_64, Dual64, DualNum, Function, HyperDual64, HyperHyperDual64};
use evindrast::{MARKET_BYTES, MAX_MARKET_BYTES, MAX_N};
use std::collections::{BTreeMap, BTreeSet};

const HEADER: &str = include_str!("../../include/evindrast.h");

/// Each function of the library is declared in the header and in the crate's `exports`.
#[test]
fn declarations() {
    let name = |line: &'static str| {
        let (answer, rest) = line.split_once(' ')?;
        let answers = ["uint32_t", "uint64_t", "double"].contains(&answer);
        rest.split('(').next().filter(|_| answers)
    };
    let header: BTreeSet<_> = HEADER.lines().filter_map(name).collect();
    let exports = include_str!("../src/exports.rs");
    let words = exports.split(|c: char| !c.is_alphanumeric() && c != '_');
    let own: BTreeSet<_> = words.filter(|word| word.starts_with("evindrast_")).collect();
    assert_eq!(header, own);
}

/// The header's names without their prefix, in this crate's spelling, with their numbers.
fn numbers(of: &str) -> BTreeMap<String, u32> {
    let start = HEADER.find(&format!("enum {of} {{")).expect("the enum");
    let body = &HEADER[start..start + HEADER[start..].find("};").expect("its end")];
    let line = |line: &str| {
        let (name, number) = line.trim().strip_prefix("EVINDRAST_")?.split_once(" = ")?;
        let digits = number.split(|c: char| !c.is_ascii_alphanumeric()).next()?;
        let number = match digits.strip_prefix("0x") {
            Some(hex) => u32::from_str_radix(hex, 16),
            None => digits.parse(),
        };
        Some((camel(name), number.expect("a number")))
    };
    body.lines().filter_map(line).collect()
}

/// MUL_FLOAT is `MulFloat`.
fn camel(name: &str) -> String {
    let word = |word: &str| word[..1].to_string() + &word[1..].to_lowercase();
    name.split('_').map(word).collect()
}

#[test]
fn functions() {
    let mut wanted = BTreeMap::new();
    for function in Function::ALL {
        wanted.insert(format!("{function:?}"), *function as u32);
    }
    assert_eq!(numbers("evindrast_function"), wanted);
}

#[test]
fn kinds() {
    let kind = |name: &str| numbers("evindrast_kind")[name];
    assert_eq!(kind("Dual"), Kind::Dual as u32);
    assert_eq!(kind("Dual2"), Kind::Dual2 as u32);
    assert_eq!(kind("Dual3"), Kind::Dual3 as u32);
    assert_eq!(kind("Hyperdual"), Kind::HyperDual as u32);
    assert_eq!(kind("Hyperhyperdual"), Kind::HyperHyperDual as u32);
}

/// What stands behind a name, without the comment.
fn defined(name: &str) -> &'static str {
    let start = format!("#define EVINDRAST_{name} ");
    let line = HEADER.lines().find_map(|line| line.strip_prefix(&start)).expect("the line");
    line.split("/*").next().expect("what stands there").trim()
}

fn defined_number(name: &str) -> usize {
    defined(name).parse().expect("a number")
}

#[test]
fn floats() {
    assert_eq!(defined_number("DUAL_FLOATS"), Dual64::PARTS);
    assert_eq!(defined_number("DUAL2_FLOATS"), Dual2_64::PARTS);
    assert_eq!(defined_number("DUAL3_FLOATS"), Dual3_64::PARTS);
    assert_eq!(defined_number("HYPERDUAL_FLOATS"), HyperDual64::PARTS);
    assert_eq!(defined_number("HYPERHYPERDUAL_FLOATS"), HyperHyperDual64::PARTS);
}

#[test]
fn limits() {
    assert_eq!(defined_number("MAX_N"), MAX_N);
    let (a, sweeps) = (Matrix::from_rows([[Dual64::ONE]]), defined_number("MAX_SWEEPS"));
    assert!(jacobi_eigenvalue(&a, sweeps).is_ok() && jacobi_eigenvalue(&a, sweeps + 1).is_err());
    let (x, exponent) = (Dual64::ONE, defined_number("MAX_EXPONENT") as i32);
    assert!(x.try_powi(exponent).is_ok() && x.try_powi(exponent + 1).is_err());
    assert!(x.try_powi(-exponent).is_ok() && x.try_powi(-exponent - 1).is_err());
}

#[test]
fn bytes_of_texts() {
    assert_eq!(defined_number("MARKET_BYTES"), MARKET_BYTES);
    let written = |bytes: usize| exports::market_write(0, &[], &mut vec![0; bytes], &mut 0);
    assert_eq!([0, 1, 2].map(|more| written(MARKET_BYTES - 1 + more)), [2, 0, 2]);
    assert_eq!(defined_number("MAX_MARKET_BYTES"), MAX_MARKET_BYTES);
    let sized = |bytes: usize| {
        let mut text = b"%%MatrixMarket matrix array integer general\n0 0\n".to_vec();
        text.resize(bytes, b'0');
        exports::market_size(&text, &mut 0)
    };
    assert_eq!([sized(MAX_MARKET_BYTES), sized(MAX_MARKET_BYTES + 1)], [0, 10]);
}

/// Header and crate are of one version.
#[test]
fn version() {
    assert_eq!(defined("VERSION").trim_matches('"'), env!("CARGO_PKG_VERSION"));
    let parts = ["MAJOR", "MINOR", "PATCH"].map(|part| defined(&format!("VERSION_{part}")));
    assert_eq!(parts.join("."), env!("CARGO_PKG_VERSION"));
}

#[test]
fn refusals() {
    let refusals = [
        Refusal::TooLarge,
        Refusal::WrongLength,
        Refusal::Empty,
        Refusal::LimitTooLarge,
        Refusal::ExponentTooLarge,
        Refusal::Singular { column: 0 },
        Refusal::NotAnOrder,
        Refusal::WrongSwaps,
        Refusal::UnreadableMarket,
        Refusal::NotSquare,
        Refusal::WrongEntries,
        Refusal::Unwritable,
    ];
    let mut wanted = BTreeMap::from([("Done".to_string(), 0)]);
    for refusal in refusals {
        let name = format!("{refusal:?}");
        let name = name.split(' ').next().expect("a name").to_string();
        wanted.insert(name, refusal.number());
    }
    assert_eq!(numbers("evindrast_number"), wanted);
}
