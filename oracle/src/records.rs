//! The answer files of the records: one for each kind, and one for its sums and products.
use crate::answers::{case, places};
use crate::functions::FUNCTIONS;
use crate::pool::{self, Pool};
use crate::random::Random;
use crate::record::{
    Dual2Kind, Dual3Kind, DualKind, HyperDualKind, HyperHyperDualKind, Kind, Record,
};
use crate::requests::requests;
use crate::supplied::Outside;
use crate::words::{hex, hex_line, words};
use crate::write::{Answers, Run};
use std::collections::{BTreeMap, BTreeSet};

/// The outside functions that each function of the records was seen to call.
pub type Called = BTreeMap<&'static str, BTreeSet<Outside>>;

pub fn all(run: Run, called: &mut Called) -> Vec<Answers> {
    vec![
        functions_of::<DualKind>(run, called),
        functions_of::<Dual2Kind>(run, called),
        functions_of::<Dual3Kind>(run, called),
        functions_of::<HyperDualKind>(run, called),
        functions_of::<HyperHyperDualKind>(run, called),
        runs_of::<DualKind>(run),
        runs_of::<Dual2Kind>(run),
        runs_of::<Dual3Kind>(run),
        runs_of::<HyperDualKind>(run),
        runs_of::<HyperHyperDualKind>(run),
    ]
}

fn functions_of<K: Kind>(run: Run, called: &mut Called) -> Answers {
    let name = format!("records-{}.txt", K::NAME);
    let pool = Pool::new(&mut Random::new(run.seed, &name));
    let (mut cases, mut counts) = (vec![], vec![]);
    for description in FUNCTIONS.iter().filter(|d| K::offers(d.function)) {
        // A sequence of its own, so that a function more or less leaves the others' cases alone; named so that at
        // the recorded seed no outside value differs between machines (README.md).
        let mut random =
            Random::new(run.seed, &format!("{:02x}-{name}", description.function as u8));
        let requests = requests(&mut random, &pool, description, K::PARTS, run.cases);
        counts.push((description.name.to_string(), requests.len()));
        for request in &requests {
            let case = case::<K>(&pool, description, request);
            cases.push(case.line);
            if request.supplied.is_none() {
                called.entry(description.name).or_default().extend(case.called);
            }
        }
    }
    let about = format!("Functions of the record {}.", K::NAME);
    Answers { name, about, before: pool_lines(&pool), cases, counts }
}

fn pool_lines(pool: &Pool) -> Vec<String> {
    words(&pool.0).into_iter().map(hex).collect()
}

const SUM: u8 = 0x39;
const PRODUCT: u8 = 0x3a;

fn runs_of<K: Kind>(run: Run) -> Answers {
    let name = format!("runs-{}.txt", K::NAME);
    let mut random = Random::new(run.seed, &name);
    let pool = Pool::new(&mut random);
    let mut cases = vec![];
    for function in [SUM, PRODUCT] {
        cases.extend((0..run.cases).map(|i| run_case::<K>(&mut random, &pool, function, i)));
    }
    let about = format!("Sums and products over runs of the record {}.", K::NAME);
    let counts = vec![("sum".to_string(), run.cases), ("product".to_string(), run.cases)];
    Answers { name, about, before: pool_lines(&pool), cases, counts }
}

/// Lengths 0 to 4 first, then up to 12; a quarter of the runs hold edges.
fn run_case<K: Kind>(random: &mut Random, pool: &Pool, function: u8, i: usize) -> String {
    let length = if i < 40 { i % 5 } else { [2, 3, 4, 6, 12][random.below(5)] };
    let edges = if random.chance(25) { 30 } else { 2 };
    let record = |random: &mut Random| -> Vec<u8> {
        let part = |random: &mut Random| {
            let range = if random.chance(edges) { pool::EDGES } else { pool::MODERATE };
            Pool::place(random, range)
        };
        (0..K::PARTS).map(|_| part(random)).collect()
    };
    let run: Vec<Vec<u8>> = (0..length).map(|_| record(random)).collect();
    let records: Vec<K::Record<f64>> =
        run.iter().map(|r| K::Record::<f64>::of(&pool.floats(r))).collect();
    let answer: K::Record<f64> = match function {
        SUM => records.into_iter().sum(),
        _ => records.into_iter().product(),
    };
    let mut fields = vec![format!("{function:02x}"), format!("{length:04x}")];
    fields.extend(run.iter().map(|r| places(r)));
    fields.push(hex_line(&words(&answer.parts())));
    fields.join(" ")
}
