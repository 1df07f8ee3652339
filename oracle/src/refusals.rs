//! Calls that are refused, and their neighbours that are not: what must come back is document 01's
//! table for the number, nothing written for a refusal, and the original's answer elsewhere.
use crate::answers::over;
use crate::functions::{Argument, Description, Extra, FUNCTIONS, Function, Shape};
use crate::matrices::{Factors, jacobi, lu};
use crate::original::{Dual, HyperDual};
use crate::record::{
    Dual2Kind, Dual3Kind, DualKind, HyperDualKind, HyperHyperDualKind, Kind, Record,
};
use crate::refusal_cases::{Case, Entry, Entry::*, cases};
use crate::supplied::{Outside, Supplied, with_supplied};
use crate::words::{word, words};
use crate::write::Answers;
use std::collections::BTreeSet;

/// What result buffers, lent orders of LU and the count beside an answer hold before a call.
const BEFORE: f64 = -7.25;
const ORDER_BEFORE: u64 = 99;
const BESIDE_BEFORE: u64 = 77;

/// What comes back: the number, what stands beside it, and the words of all that was lent to be
/// written.
struct Outcome {
    number: u64,
    beside: u64,
    written: Vec<u64>,
}

pub fn all() -> Answers {
    let mut lines = vec![];
    let mut known = BTreeSet::new();
    for case in cases() {
        let line = line(&case);
        if known.insert(line.clone()) {
            lines.push(line);
        }
    }
    let counts = vec![("refusals".to_string(), lines.len())];
    let about = "Calls that are refused, and their neighbours, by document 01's table.".to_string();
    Answers { name: "refusals.txt".to_string(), about, before: vec![], cases: lines, counts }
}

fn line(case: &Case) -> String {
    let Outcome { number, beside, written } = outcome(case);
    let (place, value) = case.set.unwrap_or((u64::from(u16::MAX), 0));
    let value = if case.entry == ByNumber { i64::from(case.exponent) as u64 } else { value };
    let fields = [
        case.entry as u64,
        case.n,
        case.style,
        case.first,
        case.second,
        case.order,
        case.result,
        case.values,
        case.exchanged[0],
        case.exchanged[1],
        place,
        value,
        case.count,
        number,
        beside,
        digest(&written),
    ];
    fields.map(|field| format!("{field:x}")).join(" ")
}

/// One word of many: each joins what came before it, turned by 33 places.
fn digest(words: &[u64]) -> u64 {
    words.iter().fold(0, |so_far: u64, word| so_far.rotate_left(33) ^ word)
}

/// The floats of an input: 1.0, or whole numbers by a small generator.
fn input(style: u64, start: u64, length: u64) -> Vec<f64> {
    let next = |x: &mut u64| {
        *x = *x % 65537 * 75 + 74;
        Some(if style == 0 { 1.0 } else { (*x % 31) as f64 - 15.0 })
    };
    let mut x = start;
    std::iter::from_fn(|| next(&mut x)).take(length as usize).collect()
}

/// Floats of a record of this kind.
pub fn parts(kind: u64) -> Option<u64> {
    [2, 3, 4, 4, 8].get((kind as usize).checked_sub(1)?).copied()
}

fn offers(kind: u64, function: Function) -> bool {
    function != Function::Nderiv
        && match kind {
            1 => DualKind::offers(function),
            2 => Dual2Kind::offers(function),
            3 => Dual3Kind::offers(function),
            4 => HyperDualKind::offers(function),
            5 => HyperHyperDualKind::offers(function),
            _ => false,
        }
}

pub fn offered(kind: u64, function: u64) -> Option<&'static Description> {
    FUNCTIONS.iter().find(|d| d.function as u64 == function).filter(|d| offers(kind, d.function))
}

/// The floats wanted for records, for plain and outside floats, and for the answer.
pub fn wanted_lengths(kind: u64, function: u64) -> Option<[u64; 3]> {
    let (known, parts) = (offered(kind, function)?, parts(kind)?);
    let floats = known.extras.iter().filter(|extra| **extra != Extra::Exponent).count();
    Some([known.records as u64 * parts, floats as u64, known.answer_words(parts as usize) as u64])
}

/// Document 01's table, in its order of checks: 1, 3, 2, 4, 7, 8; 5 is powi's.
fn number(case: &Case) -> u64 {
    match case.entry {
        ByNumber => match wanted_lengths(case.n, case.count) {
            Some(lengths) if lengths == [case.first, case.second, case.result] => {
                let powi = case.count == Function::Powi as u64;
                if powi && !(-1024..=1024).contains(&case.exponent) { 5 } else { 0 }
            }
            _ => 2,
        },
        Operator => match parts(case.n) {
            Some(width) if case.first == 2 * width && case.result == width => 0,
            _ => 2,
        },
        Sum | Product => match parts(case.n) {
            Some(width) if case.first % width == 0 && case.result == width => 0,
            _ => 2,
        },
        RootOfWord | Root => 0,
        _ => matrix_number(case),
    }
}

fn matrix_number(case: &Case) -> u64 {
    if case.n > 32 {
        return 1;
    }
    if case.entry == Jacobi && case.n == 0 {
        return 3;
    }
    let right = Case::matrix(case.entry, width(case.entry), case.n);
    if case.taken().iter().any(|place| case.lengths()[*place] != right.lengths()[*place]) {
        return 2;
    }
    if case.entry == Jacobi && case.count > 1000 {
        return 4;
    }
    if case.reads_order() {
        let order = order(case);
        if !(0..case.n).all(|row| order.contains(&row)) {
            return 7;
        }
        let counted = matches!(case.entry, Determinant | HyperDualDeterminant);
        if counted && (case.count > 32 || case.count % 2 != inversions(&order) % 2) {
            return 8;
        }
    }
    0
}

fn width(entry: Entry) -> u64 {
    if entry as u64 > 0x10 { 4 } else { 2 }
}

fn order(case: &Case) -> Vec<u64> {
    let mut order: Vec<u64> = (0..case.order).collect();
    let [i, j] = case.exchanged.map(|place| place as usize);
    if i.max(j) < order.len() {
        order.swap(i, j);
    }
    if let Some((place, value)) = case.set
        && let Some(entry) = order.get_mut(place as usize)
    {
        *entry = value;
    }
    order
}

fn inversions(order: &[u64]) -> u64 {
    let above = |i: usize| order[..i].iter().filter(|row| **row > order[i]).count();
    (0..order.len()).map(above).sum::<usize>() as u64
}

/// A refusal writes nothing; where there is none the original answers.
fn outcome(case: &Case) -> Outcome {
    let number = number(case);
    if number == 0 {
        return done(case);
    }
    let mut written = vec![word(BEFORE); (case.result + case.values) as usize];
    if matches!(case.entry, Lu | HyperDualLu) {
        written.extend(vec![ORDER_BEFORE; case.order as usize]);
    }
    Outcome { number, beside: BESIDE_BEFORE, written }
}

fn done(case: &Case) -> Outcome {
    let unbeside = |written| Outcome { number: 0, beside: BESIDE_BEFORE, written };
    match (case.entry, case.n) {
        (Jacobi, _) => done_jacobi(case),
        (RootOfWord | Root, _) => unbeside(vec![word(f64::from_bits(case.n).sqrt())]),
        (ByNumber, 1) => unbeside(done_record::<DualKind>(case)),
        (ByNumber, 2) => unbeside(done_record::<Dual2Kind>(case)),
        (ByNumber, 3) => unbeside(done_record::<Dual3Kind>(case)),
        (ByNumber, 4) => unbeside(done_record::<HyperDualKind>(case)),
        (ByNumber, 5) => unbeside(done_record::<HyperHyperDualKind>(case)),
        (Operator | Sum | Product, 1) => unbeside(done_joined::<DualKind>(case)),
        (Operator | Sum | Product, 2) => unbeside(done_joined::<Dual2Kind>(case)),
        (Operator | Sum | Product, 3) => unbeside(done_joined::<Dual3Kind>(case)),
        (Operator | Sum | Product, 4) => unbeside(done_joined::<HyperDualKind>(case)),
        (Operator | Sum | Product, 5) => unbeside(done_joined::<HyperHyperDualKind>(case)),
        _ if width(case.entry) == 2 => done_matrix::<Dual<f64>>(case),
        _ => done_matrix::<HyperDual<f64>>(case),
    }
}

fn records_of<T: Record<f64>>(floats: &[f64]) -> Vec<T> {
    let width = T::zero().parts().len();
    floats.chunks(width).map(|parts| T::of(parts)).collect()
}

fn all_words<T: Record<f64>>(records: &[T]) -> Vec<u64> {
    records.iter().flat_map(|record| words(&record.parts())).collect()
}

fn done_matrix<T: Record<f64>>(case: &Case) -> Outcome {
    let n = case.n as usize;
    let entries: Vec<T> = records_of(&input(case.style, 1, case.first));
    if matches!(case.entry, Lu | HyperDualLu) {
        return match lu(n, &entries) {
            Ok(factors) => {
                let mut written = all_words(&factors.entries);
                written.extend(factors.order.iter().map(|row| *row as u64));
                Outcome { number: 0, beside: factors.swaps as u64, written }
            }
            Err(column) => {
                let written = vec![0; (case.result + case.order) as usize];
                Outcome { number: 6, beside: column as u64, written }
            }
        };
    }
    let order = order(case).iter().map(|row| *row as usize).collect();
    let factors = Factors { n, entries, order, swaps: case.count as usize };
    let answer = match case.entry {
        Solve | HyperDualSolve => {
            factors.solve(&records_of::<T>(&input(case.style, 2, case.second)))
        }
        Determinant | HyperDualDeterminant => vec![factors.determinant()],
        _ => factors.inverse(),
    };
    Outcome { number: 0, beside: BESIDE_BEFORE, written: all_words(&answer) }
}

fn done_jacobi(case: &Case) -> Outcome {
    let entries: Vec<Dual<f64>> = records_of(&input(case.style, 1, case.first));
    let eigen = jacobi(case.n as usize, &entries, case.count as usize);
    let written = [all_words(&eigen.vectors), all_words(&eigen.values)].concat();
    Outcome { number: 0, beside: eigen.sweeps as u64, written }
}

/// A call by number: the floats are the plain one and the outside values, in the table's order.
fn done_record<K: Kind>(case: &Case) -> Vec<u64> {
    let description = offered(case.n, case.count).expect("a function of the kind");
    let floats = input(case.style, 2, case.second);
    let mut next = floats.iter();
    let mut argument = Argument { float: 0.0, exponent: case.exponent };
    let mut values: Vec<(Outside, f64)> = vec![];
    for extra in description.extras {
        match extra {
            Extra::Float => argument.float = *next.next().expect("a float"),
            Extra::Exponent => {}
            Extra::Value(outside) => values.push((*outside, *next.next().expect("a value"))),
        }
    }
    let records = input(case.style, 1, case.first);
    let parts: Vec<Vec<f64>> = records.chunks(K::PARTS).map(<[f64]>::to_vec).collect();
    let call = || over::<Supplied, K::Record<Supplied>>(description.function, &parts, argument);
    let (answer, _) = with_supplied(&values, call);
    match description.shape {
        Shape::Number => answer.iter().map(|number| word(*number as f64)).collect(),
        _ => answer,
    }
}

fn done_joined<K: Kind>(case: &Case) -> Vec<u64> {
    let records: Vec<K::Record<f64>> = records_of(&input(case.style, 1, case.first));
    let answer: K::Record<f64> = match (case.entry, case.count) {
        (Sum, _) => records.into_iter().sum(),
        (Product, _) => records.into_iter().product(),
        (_, 9) => records[0] + records[1],
        (_, 0xa) => records[0] - records[1],
        (_, 0xb) => records[0] * records[1],
        _ => records[0] / records[1],
    };
    words(&answer.parts())
}
