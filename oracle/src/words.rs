//! Floats as words: 16 lowercase hex digits, every NaN as one.

pub const NAN_WORD: u64 = 0x7ff8_0000_0000_0000;

/// The bits of `x`; those of one NaN for all.
pub fn word(x: f64) -> u64 {
    if x.is_nan() { NAN_WORD } else { x.to_bits() }
}

/// The words of several floats.
pub fn words(floats: &[f64]) -> Vec<u64> {
    floats.iter().map(|x| word(*x)).collect()
}

/// The float with these bits, a NaN as the one.
pub fn float(bits: u64) -> f64 {
    f64::from_bits(word(f64::from_bits(bits)))
}

pub fn hex(word: u64) -> String {
    format!("{word:016x}")
}

/// Words separated by single spaces.
pub fn hex_line(words: &[u64]) -> String {
    words.iter().map(|w| hex(*w)).collect::<Vec<_>>().join(" ")
}
