//! Matrix Market texts over `Dual`, read and written by the port and by plain Rust.
use crate::INPUTS;
use crate::plain_market as plain;
use crate::timing::{Times, in_turn};
use compare::random::Random;
use compare::words::words;
use evindrast::exports;
use std::hint::black_box;

/// The bytes that a text is written into.
const PAGE: usize = 20_480;

/// Matrices of one size with their texts: all entries, and the diagonal and below.
pub struct Texts {
    pub n: usize,
    matrices: Vec<Vec<f64>>,
    pub general: Vec<Vec<u8>>,
    pub symmetric: Vec<Vec<u8>>,
}

/// A row of the table: its name and its time.
type Row = (&'static str, fn(&Texts) -> Times);

pub const ROWS: [Row; 2] = [
    ("Matrix Market, read", |texts| read(texts.n, &texts.general)),
    ("Matrix Market, written", write),
];

/// At the largest size alone.
pub const SYMMETRIC: Row =
    ("Matrix Market, read, symmetric", |texts| read(texts.n, &texts.symmetric));

impl Texts {
    pub fn new(random: &mut Random, n: usize) -> Self {
        let mut matrix =
            || -> Vec<f64> { (0..n * n).flat_map(|_| [number(random), 0.0]).collect() };
        let matrices: Vec<Vec<f64>> = (0..INPUTS).map(|_| matrix()).collect();
        let texts = |symmetric| matrices.iter().map(|a| text(n, a, symmetric)).collect();
        Self { n, general: texts(false), symmetric: texts(true), matrices }
    }

    /// Panics where the two differ; else how many words and bytes were compared.
    pub fn compare(&self) -> (usize, usize) {
        let texts = self.general.iter().chain(&self.symmetric);
        let floats = texts.map(|text| compare_reading(self.n, text)).sum();
        let pairs = self.matrices.iter().zip(&self.general);
        (floats, pairs.map(|(a, text)| compare_writing(self.n, a, text)).sum())
    }
}

/// Of one to sixteen digits and either sign.
fn number(random: &mut Random) -> f64 {
    let least = 10usize.pow(random.below(16) as u32);
    let number = (least + random.below((9 * least).min((1 << 53) - least))) as f64;
    if random.chance(50) { -number } else { number }
}

/// The text of a matrix, by std's formatting.
fn text(n: usize, a: &[f64], symmetric: bool) -> Vec<u8> {
    let symmetry = if symmetric { "symmetric" } else { "general" };
    let mut text = format!("%%MatrixMarket matrix array integer {symmetry}\n{n} {n}\n");
    for column in 0..n {
        for row in if symmetric { column } else { 0 }..n {
            text += &format!("{}\n", a[(row * n + column) * 2]);
        }
    }
    text.into_bytes()
}

fn compare_reading(n: usize, text: &[u8]) -> usize {
    let (mut port, mut port_n) = (vec![1.0; 2 * n * n], 0);
    assert_eq!(exports::market_read(text, &mut port, &mut port_n), 0);
    let (mut rust, mut rust_n) = (vec![2.0; 2 * n * n], 0);
    assert_eq!(plain::read(text, &mut rust, &mut rust_n), 0);
    assert_eq!((words(&port), port_n), (words(&rust), rust_n), "a text read at n = {n}");
    port.len()
}

fn compare_writing(n: usize, a: &[f64], text: &[u8]) -> usize {
    let (mut port, mut port_length) = (vec![1; PAGE], 0);
    assert_eq!(exports::market_write(n, a, &mut port, &mut port_length), 0);
    let (mut rust, mut rust_length) = (vec![2; PAGE], 0);
    assert_eq!(plain::write(n, a, &mut rust, &mut rust_length), 0);
    assert_eq!((&port, port_length), (&rust, rust_length), "a text written at n = {n}");
    assert_eq!(&port[..port_length], text, "a text written at n = {n}");
    PAGE
}

fn read(n: usize, texts: &[Vec<u8>]) -> Times {
    let (mut port, mut port_n) = (vec![0.0; 2 * n * n], 0);
    let (mut rust, mut rust_n) = (vec![0.0; 2 * n * n], 0);
    let lend = |i: usize| black_box(&texts[i % INPUTS]);
    in_turn(
        lend,
        |text| _ = black_box(exports::market_read(text, &mut port, &mut port_n)),
        lend,
        |text| _ = black_box(plain::read(text, &mut rust, &mut rust_n)),
    )
}

fn write(texts: &Texts) -> Times {
    let n = texts.n;
    let (mut port, mut port_length) = (vec![0; PAGE], 0);
    let (mut rust, mut rust_length) = (vec![0; PAGE], 0);
    let lend = |i: usize| black_box(&texts.matrices[i % INPUTS]);
    in_turn(
        lend,
        |a| _ = black_box(exports::market_write(n, a, &mut port, &mut port_length)),
        lend,
        |a| _ = black_box(plain::write(n, a, &mut rust, &mut rust_length)),
    )
}
