//! The answer file of the square root.
use crate::pool::{EDGES, Pool};
use crate::random::Random;
use crate::words::{hex_line, word};
use crate::write::{Answers, Run};

/// Ten floats for each of `run.cases`.
pub fn all(run: Run) -> Answers {
    let name = "root.txt".to_string();
    let mut random = Random::new(run.seed, &name);
    let mut floats: Vec<f64> = Pool::new(&mut random).0[EDGES].to_vec();
    while floats.len() < run.cases * 10 {
        floats.extend(round(&mut random));
    }
    floats.truncate(run.cases * 10);
    let cases: Vec<String> = floats.iter().map(|x| hex_line(&[word(*x), word(x.sqrt())])).collect();
    let counts = vec![("root".to_string(), cases.len())];
    Answers { name, about: "The square root.".to_string(), before: vec![], cases, counts }
}

/// Any bits, every exponent, subnormals of every length, both sides of an exact square, and both
/// sides of a root in the middle between two floats, where rounding turns.
fn round(random: &mut Random) -> Vec<f64> {
    let subnormal = f64::from_bits((random.word() & ((1 << 52) - 1)) >> random.below(52));
    let root = f64::from_bits(random.scaled(-500, 500).to_bits() & !((1 << 27) - 1));
    let square = (root * root).to_bits();
    let mut floats = vec![random.bits(), random.bits().abs(), subnormal];
    floats.push(random.scaled(-1022, 1023).abs());
    floats.extend([square - 1, square, square + 1].map(f64::from_bits));
    floats.extend(by_middle(random));
    floats
}

/// The two floats around the square of a significand of 54 bits that ends in 1.
fn by_middle(random: &mut Random) -> [f64; 2] {
    let middle = u128::from(random.word() >> 11 | 1 << 52) * 2 + 1;
    let square = middle * middle;
    let dropped = 128 - square.leading_zeros() as i32 - 53;
    let below = (square >> dropped) as u64;
    let scale = 2f64.powi(dropped % 2 + 2 * (random.below(900) as i32 - 450));
    [below, below + 1].map(|significand| significand as f64 * scale)
}
