//! What `dualrun` prints, by the original: document 01's runner over its LU and Jacobi, for texts
//! that can be read.
use crate::matrices::{Entries, entry_words, jacobi, lu};
use crate::matrix_files::{jacobi_requests, lu_matrices};
use crate::matrix_requests::{Matrix, Style, matrix};
use crate::original::Dual;
use crate::random::Random;
use crate::words::{NAN_WORD, hex, hex_line, word};
use crate::write::{Answers, Run};

const SIZE_REFUSED: &str = "1 0\n";
const EMPTY_REFUSED: &str = "3 0\n";
const LIMIT_REFUSED: &str = "4 0\n";

/// Each case is a line with the lengths of input and output in eight digits, then the input, then
/// the output, byte for byte.
pub fn all(run: Run) -> Answers {
    let mut random = Random::new(run.seed, "dualrun");
    let inputs = inputs(&mut random, run.cases / 2);
    let case = |input: &String| {
        let output = output(input);
        let text = format!("{:08x} {:08x}\n{input}{output}", input.len(), output.len());
        text.strip_suffix('\n').expect("outputs end a line").to_string()
    };
    let cases: Vec<String> = inputs.iter().map(case).collect();
    let counts = vec![("dualrun".to_string(), cases.len())];
    let about = "Texts for dualrun and what it prints.".to_string();
    Answers { name: "dualrun.txt".to_string(), about, before: vec![], cases, counts }
}

/// Refusals from the first line, then matrices for `lu` and `eig`.
fn inputs(random: &mut Random, cases: usize) -> Vec<String> {
    let mut inputs: Vec<String> = FIRST_LINES.iter().map(|line| format!("{line}\n")).collect();
    let largest = matrix(random, 32, Style::Moderate);
    inputs.push(text("lu 32", &largest, random));
    let small = matrix(random, 2, Style::Whole);
    inputs.push(text("lu 000000002", &small, random));
    inputs.push(text("eig 02 0200", &small, random));
    let lu = lu_matrices(random, cases);
    inputs.extend(lu.iter().filter(|m| m.n < 6).map(|m| text(&format!("lu {}", m.n), m, random)));
    let eig = jacobi_requests(random, cases);
    inputs.extend(
        (eig.iter().filter(|(m, _)| m.n < 6))
            .map(|(m, limit)| text(&format!("eig {} {limit}", m.n), m, random)),
    );
    inputs
}

const NAN_WORDS: [u64; 4] = [NAN_WORD, 0xfff8000000000000, 0x7ff0000000000001, u64::MAX];

/// The rest of the text is not read.
#[rustfmt::skip]
const FIRST_LINES: [&str; 19] = [
    "lu 0", "lu 000000000", "lu 33", "lu 33\n0 0", "lu 999999999", "lu 000000033",
    "eig 0 0", "eig 0 200", "eig 0 1001", "eig 0 999999999\nx",
    "eig 33 0", "eig 33 1001", "eig 999999999 999999999",
    "eig 1 1001", "eig 32 1001", "eig 2 999999999\n7", "eig 02 01001",
    "eig 1 000001000\n8000000000000000 8000000000000000",
    "eig 1 0\nfff8000000000000 7ff0000000000001",
];

/// A text with this first line. Some NaNs get other bits than the one.
fn text(first: &str, matrix: &Matrix, random: &mut Random) -> String {
    let mut text = format!("{first}\n");
    for entry in &matrix.entries {
        let words = entry_words(entry).into_iter().map(|w| match f64::from_bits(w).is_nan() {
            true => random.choose(&NAN_WORDS),
            false => w,
        });
        text.push_str(&hex_line(&words.collect::<Vec<_>>()));
        text.push('\n');
    }
    text
}

/// What is printed for a text that can be read, or is refused by its first line. The bits of its
/// NaNs make no difference.
pub fn output(input: &str) -> String {
    let one_nan = NAN_WORDS
        .iter()
        .fold(input.to_string(), |text, word| text.replace(&hex(*word), &hex(NAN_WORD)));
    let output = printed(input);
    assert_eq!(printed(&one_nan), output);
    output
}

fn printed(input: &str) -> String {
    let mut lines = input.lines();
    let first: Vec<&str> = lines.next().expect("a first line").split(' ').collect();
    let number = |text: &str| text.parse::<usize>().expect("a number");
    let n = number(first[1]);
    match (first[0], first.get(2).map(|limit| number(limit))) {
        _ if n > 32 => SIZE_REFUSED.to_string(),
        ("lu", None) => print_lu(n, &read(lines)),
        ("eig", Some(_)) if n == 0 => EMPTY_REFUSED.to_string(),
        ("eig", Some(limit)) if limit > 1000 => LIMIT_REFUSED.to_string(),
        ("eig", Some(limit)) => print_eig(n, &read(lines), limit),
        _ => panic!("not a text for dualrun"),
    }
}

fn read<'a>(lines: impl Iterator<Item = &'a str>) -> Entries {
    let float = |digits: &str| f64::from_bits(u64::from_str_radix(digits, 16).expect("a word"));
    let record = |line: &str| {
        let (re, eps) = line.split_once(' ').expect("two words");
        Dual { re: float(re), eps: float(eps) }
    };
    lines.map(record).collect()
}

fn print_lu(n: usize, entries: &Entries) -> String {
    match lu(n, entries) {
        Err(column) => format!("6 {column}\n"),
        Ok(factors) => {
            let order: Vec<String> = factors.order.iter().map(usize::to_string).collect();
            format!("0 {}\n{}\n{}", factors.swaps, order.join(" "), records(&factors.entries))
        }
    }
}

fn print_eig(n: usize, entries: &Entries, limit: usize) -> String {
    let eigen = jacobi(n, entries, limit);
    format!("0 {}\n{}{}", eigen.sweeps, records(&eigen.values), records(&eigen.vectors))
}

fn records(entries: &Entries) -> String {
    let line = |e: &Dual<f64>| format!("{}\n", hex_line(&[word(e.re), word(e.eps)]));
    entries.iter().map(line).collect()
}
