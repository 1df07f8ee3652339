//! Matrix Market texts: every text is read through both records, by the lent functions over filled
//! buffers and by the crate's own, and all must say the same; a call that is refused writes nothing.
mod c;
// of it numbers alone
#[allow(dead_code)]
mod random;

use evindrast::{exports, Dual64, Entry, HyperDual64, Matrix, Refusal, MARKET_BYTES};
use random::Random;

/// What floats, bytes and counts hold before a call.
const BEFORE: f64 = -7.25;
const BYTE_BEFORE: u8 = b'x';
const COUNT_BEFORE: usize = 77;

/// The lent functions for one record.
struct Market {
    floats: usize,
    read: fn(&[u8], &mut [f64], &mut usize) -> u32,
    write: fn(usize, &[f64], &mut [u8], &mut usize) -> u32,
}

const MARKETS: [Market; 2] = [
    Market { floats: 2, read: exports::market_read, write: exports::market_write },
    Market {
        floats: 4,
        read: exports::hyperdual_market_read,
        write: exports::hyperdual_market_write,
    },
];

/// The size in a text, or the number that it is refused by.
fn size(text: &[u8]) -> Result<usize, u32> {
    let mut n = COUNT_BEFORE;
    let number = exports::market_size(text, &mut n);
    assert!(number == 0 || n == COUNT_BEFORE, "{number} writes no size");
    given(number, n)
}

fn given<T>(number: u32, result: T) -> Result<T, u32> {
    match number {
        0 => Ok(result),
        number => Err(number),
    }
}

impl Market {
    /// The real parts, row by row, that are read into so many floats, or the refusal's number.
    fn read_into(&self, length: usize, text: &[u8]) -> Result<Vec<f64>, u32> {
        let (mut out, mut n) = (vec![BEFORE; length], COUNT_BEFORE);
        let number = (self.read)(text, &mut out, &mut n);
        if number != 0 {
            assert!(n == COUNT_BEFORE && out.iter().all(|float| *float == BEFORE), "{number}");
            return Err(number);
        }
        assert_eq!((Ok(n), n * n * self.floats), (size(text), length));
        let slope = |place: usize| place % self.floats != 0;
        assert!((0..length).all(|place| !slope(place) || out[place].to_bits() == 0));
        Ok(out.into_iter().step_by(self.floats).collect())
    }

    /// The text of a matrix of so many rows, from its floats, in so many bytes.
    fn write_into(&self, bytes: usize, n: usize, a: &[f64]) -> Result<Vec<u8>, u32> {
        let (mut text, mut length) = (vec![BYTE_BEFORE; bytes], COUNT_BEFORE);
        let number = (self.write)(n, a, &mut text, &mut length);
        if number != 0 {
            assert!(length == COUNT_BEFORE && text.iter().all(|byte| *byte == BYTE_BEFORE));
            return Err(number);
        }
        assert!(text[length..].iter().all(|byte| *byte == 0), "unused bytes are zero");
        text.truncate(length);
        Ok(text)
    }
}

/// The real parts of a matrix that the crate reads.
fn crate_reads<T: Entry>(text: &[u8]) -> Result<Vec<f64>, u32> {
    let a = Matrix::<T>::from_market(text).map_err(Refusal::number)?;
    Ok(a.entries().iter().map(|entry| entry.re()).collect())
}

/// By their bits, so that -0 is not +0.
fn bits(read: &Result<Vec<f64>, u32>) -> Result<Vec<u64>, u32> {
    read.as_ref().map(|floats| floats.iter().map(|float| float.to_bits()).collect()).map_err(|n| *n)
}

/// The real parts in a text, row by row, or the refusal's number, from all who read it. Each lent
/// buffer has the length for the size in the text, where there is one.
fn read(text: &[u8]) -> Result<Vec<f64>, u32> {
    let n = size(text);
    let [dual, hyperdual] =
        MARKETS.map(|market| market.read_into(market.floats * n.unwrap_or(1).pow(2), text));
    assert_eq!(bits(&dual), bits(&hyperdual));
    assert_eq!(bits(&dual), bits(&crate_reads::<Dual64>(text)));
    assert_eq!(bits(&dual), bits(&crate_reads::<HyperDual64>(text)));
    if let Err(number) = n {
        assert_eq!(dual, Err(number), "the size is refused as the matrix is");
    }
    dual
}

/// The text that all who write make of these real parts, or the refusal's number.
fn write(n: usize, real: &[f64]) -> Result<Vec<u8>, u32> {
    let [dual, hyperdual] =
        MARKETS.map(|market| market.write_into(MARKET_BYTES, n, &records(&market, real)));
    assert_eq!(dual, hyperdual);
    assert_eq!(dual, crate_writes::<Dual64>(n, real));
    assert_eq!(dual, crate_writes::<HyperDual64>(n, real));
    dual
}

fn crate_writes<T: Entry>(n: usize, real: &[f64]) -> Result<Vec<u8>, u32> {
    let a = Matrix::<T>::from_fn(n, |r, c| T::from_re(real[r * n + c]));
    a.to_market().map_err(Refusal::number)
}

/// The floats of a record that has derivative parts zero, one after the other.
fn records(market: &Market, real: &[f64]) -> Vec<f64> {
    let mut floats = vec![0.0; market.floats * real.len()];
    for (place, re) in real.iter().enumerate() {
        floats[market.floats * place] = *re;
    }
    floats
}

const GENERAL: &str = "%%MatrixMarket matrix array integer general\n";
const SYMMETRIC: &str = "%%MatrixMarket matrix array integer symmetric\n";

/// What follows a header, read with it.
fn general(rest: &str) -> Result<Vec<f64>, u32> {
    read(format!("{GENERAL}{rest}").as_bytes())
}

fn symmetric(rest: &str) -> Result<Vec<f64>, u32> {
    read(format!("{SYMMETRIC}{rest}").as_bytes())
}

#[test]
fn a_general_text_goes_column_by_column() {
    let rows = [1.0, -4.0, 7.0, 2.0, 5.0, 8.0, 3.0, 6.0, -90.0];
    assert_eq!(general("3 3\n1\n2\n3\n-4\n5\n6\n7\n8\n-90\n"), Ok(rows.to_vec()));
    assert_eq!(general("2 2\n1\n2\n3\n4\n"), Ok(vec![1.0, 3.0, 2.0, 4.0]));
    assert_eq!(general("1 1\n12\n"), Ok(vec![12.0]));
    assert_eq!(general("0 0\n"), Ok(vec![]));
}

#[test]
fn a_symmetric_text_gives_the_diagonal_and_below() {
    let rows = [1.0, 2.0, -3.0, 2.0, 4.0, 5.0, -3.0, 5.0, 6.0];
    assert_eq!(symmetric("3 3\n1\n2\n-3\n4\n5\n6\n"), Ok(rows.to_vec()));
    assert_eq!(symmetric("2 2\n1\n2\n3\n"), Ok(vec![1.0, 2.0, 2.0, 3.0]));
    assert_eq!(symmetric("1 1\n12\n"), Ok(vec![12.0]));
    assert_eq!(symmetric("0 0\n"), Ok(vec![]));
    // as many entries as a general text has are too many, and the other way round too few
    assert_eq!(symmetric("2 2\n1\n2\n3\n4\n"), Err(12));
    assert_eq!(general("2 2\n1\n2\n3\n"), Err(12));
}

#[test]
fn each_refusal_has_its_text() {
    assert_eq!(read(b""), Err(10));
    assert_eq!(read(GENERAL.as_bytes()), Err(10));
    assert_eq!(general("0 1\n"), Err(11));
    assert_eq!(general("33 33\n"), Err(1));
    assert_eq!(general("1 1\n"), Err(12));
    assert_eq!(general("0 0\n\n"), Err(12));
    assert_eq!(general("1 1\nx"), Err(10));
    for market in MARKETS {
        let text = [GENERAL, "1 1\n7\n"].concat();
        let floats = market.floats;
        for length in [0, 1, floats - 1, floats + 1, 4 * floats, 20_000] {
            assert_eq!(market.read_into(length, text.as_bytes()), Err(2), "{length}");
        }
        assert_eq!(market.read_into(floats, text.as_bytes()), Ok(vec![7.0]));
    }
    assert_eq!(write(1, &[0.5]), Err(20));
}

#[test]
fn headers_are_read_byte_for_byte() {
    for header in [GENERAL, SYMMETRIC] {
        assert_eq!(read(format!("{header}1 1\n5\n").as_bytes()), Ok(vec![5.0]));
        for place in 0..header.len() {
            let mut text = format!("{header}1 1\n5\n").into_bytes();
            text[place] ^= 0x20;
            assert_eq!(read(&text), Err(10), "{place}");
            text.remove(place);
            assert_eq!(read(&text), Err(10), "without {place}");
        }
    }
    for header in ["array integer", "array real general", "coordinate integer general"] {
        assert_eq!(read(format!("%%MatrixMarket matrix {header}\n1 1\n5\n").as_bytes()), Err(10));
    }
    assert_eq!(read(format!("\n{GENERAL}1 1\n5\n").as_bytes()), Err(10));
    assert_eq!(read(format!("{} \n1 1\n5\n", GENERAL.trim_end()).as_bytes()), Err(10));
    assert_eq!(read(format!("{}\r\n1 1\n5\n", GENERAL.trim_end()).as_bytes()), Err(10));
}

#[test]
fn comments_stand_before_the_size_line_alone() {
    assert_eq!(general("%\n1 1\n5\n"), Ok(vec![5.0]));
    assert_eq!(general("% one\n%% two % 2 2\n%\r\n1 1\n5\n"), Ok(vec![5.0]));
    let bytes: Vec<u8> = (0..=255).filter(|byte| *byte != b'\n').collect();
    let text = [GENERAL.as_bytes(), b"%", &bytes, b"\n1 1\n5\n"].concat();
    assert_eq!(read(&text), Ok(vec![5.0]));
    assert_eq!(general("% no end"), Err(10));
    assert_eq!(general("% no size\n"), Err(10));
    assert_eq!(general(" % a space before\n1 1\n5\n"), Err(10));
    assert_eq!(general("1 1\n% late\n5\n"), Err(10));
    assert_eq!(general("1 1 % late\n5\n"), Err(10));
    assert_eq!(general("1 1\n5\n% after\n"), Err(12));
}

#[test]
fn size_lines_are_two_numbers_and_one_space() {
    let unreadable = [
        "\n1 1\n5\n",
        " 1 1\n5\n",
        "1  1\n5\n",
        "1 1 \n5\n",
        "1 1 1\n5\n",
        "1\n5\n",
        "1\t1\n5\n",
        "1 \n5\n",
        "-1 -1\n5\n",
        "1 -1\n5\n",
        "+1 1\n5\n",
        "1 1\r\n5\n",
        "1,1\n5\n",
        "a 1\n5\n",
        "1 a\n5\n",
        "1 1a\n5\n",
        "1a 1\n5\n",
        "1 1",
    ];
    for rest in unreadable {
        assert_eq!(general(rest), Err(10), "{rest:?}");
        assert_eq!(symmetric(rest), Err(10), "{rest:?}");
    }
}

#[test]
fn sizes_count_by_their_value() {
    assert_eq!(general("0002 2\n1\n2\n3\n4\n"), Ok(vec![1.0, 3.0, 2.0, 4.0]));
    assert_eq!(general("1 000000000000000000000000000001\n5\n"), Ok(vec![5.0]));
    assert_eq!(general("00 0\n"), Ok(vec![]));
    assert_eq!(general("2 3\n"), Err(11));
    assert_eq!(general("3 2\n"), Err(11));
    assert_eq!(general("33 34\n"), Err(11));
    assert_eq!(general("0033 33\n"), Err(1));
    let thirty = "123456789012345678901234567890";
    assert_eq!(general(&format!("{thirty} {thirty}\n")), Err(1));
    assert_eq!(general(&format!("000{thirty} {thirty}\n")), Err(1));
    assert_eq!(general(&format!("{thirty} 123456789012345678901234567891\n")), Err(11));
    // values that are equal where they are kept in 64 bits alone
    assert_eq!(general("18446744073709551617 1\n5\n"), Err(11));
    assert_eq!(general("18446744073709551617 18446744073709551617\n5\n"), Err(1));
    // and such as are equal above the limit of entries
    assert_eq!(general("9007199254740993 9007199254740994\n"), Err(11));
    assert_eq!(general("9007199254740993 9007199254740993\n"), Err(1));
}

#[test]
fn entries_are_whole_numbers_alone_on_their_lines() {
    let unreadable = [
        "x", "5x", "5 ", " 5", "5 \n", "+5\n", "--5\n", "-x", "- 5\n", "5-\n", "5.0\n", "5\r\n",
        "\n5\n", "-\n5\n", "% 5\n", "5e1\n", "0x5\n", "\t5\n", "\0", "5\0\n", "\u{e9}",
    ];
    for rest in unreadable {
        assert_eq!(general(&format!("1 1\n{rest}")), Err(10), "{rest:?}");
        assert_eq!(symmetric(&format!("2 2\n1\n{rest}")), Err(10), "{rest:?}");
    }
    assert_eq!(general("1 1\n0000005\n"), Ok(vec![5.0]));
    assert_eq!(general("1 1\n-0000005\n"), Ok(vec![-5.0]));
    let zeros = "0".repeat(60_000);
    assert_eq!(general(&format!("1 1\n-{zeros}12\n")), Ok(vec![-12.0]));
}

/// By bits: `read` compares them among the readers, this with +0 itself.
#[test]
fn minus_zero_is_read_as_zero_and_written_as_zero() {
    for zero in ["0", "-0", "-000", "000"] {
        let read = general(&format!("1 1\n{zero}\n"));
        assert_eq!(bits(&read), Ok(vec![0]), "{zero}");
    }
    let text = [GENERAL, "1 1\n0\n"].concat();
    assert_eq!(write(1, &[-0.0]), Ok(text.into_bytes()));
}

#[test]
fn magnitudes_go_to_two_to_the_53() {
    let largest = 9_007_199_254_740_992.0;
    assert_eq!(general("1 1\n9007199254740992\n"), Ok(vec![largest]));
    assert_eq!(general("1 1\n-9007199254740992\n"), Ok(vec![-largest]));
    assert_eq!(general("1 1\n0009007199254740992\n"), Ok(vec![largest]));
    assert_eq!(general("1 1\n9007199254740991\n"), Ok(vec![largest - 1.0]));
    for above in
        ["9007199254740993", "10000000000000000", "90071992547409920", "18446744073709551617"]
    {
        assert_eq!(general(&format!("1 1\n{above}\n")), Err(10), "{above}");
        assert_eq!(general(&format!("1 1\n-{above}\n")), Err(10), "{above}");
        // the digit that takes it above is the first fault, be the text cut after it or not
        assert_eq!(general(&format!("1 1\n{above}")), Err(10), "{above}");
    }
    assert_eq!(general("1 1\n9007199254740992"), Err(12));
    let written = |re: f64| write(1, &[re]).map(|text| text[GENERAL.len() + 4..].to_vec());
    assert_eq!(written(largest), Ok(b"9007199254740992\n".to_vec()));
    assert_eq!(written(-largest), Ok(b"-9007199254740992\n".to_vec()));
    assert_eq!(written(largest + 2.0), Err(20));
    assert_eq!(written(-largest - 2.0), Err(20));
}

#[test]
fn what_comes_first_is_told_first() {
    let filler = "0".repeat(65_537);
    assert_eq!(general(&format!("1 2\n{filler}")), Err(10), "too long before not square");
    assert_eq!(general("40 41\n"), Err(11), "not square before too large");
    for market in MARKETS {
        let lent = |rest: &str| market.read_into(3, format!("{GENERAL}{rest}").as_bytes());
        assert_eq!(lent("1 x\n"), Err(10), "the size line before a length");
        assert_eq!(lent("1 2\n5\n"), Err(11), "not square before a length");
        assert_eq!(lent("33 33\n"), Err(1), "too large before a length");
        assert_eq!(lent("1 1\nx\n"), Err(2), "a length before the entries");
        assert_eq!(lent("1 1\n"), Err(2), "a length before the entries");
        assert_eq!(lent("1 1\n5\n6\n"), Err(2), "a length before what stands after them");
    }
    assert_eq!(general("2 2\n1\nx\n3\n"), Err(10), "a letter before the end");
    assert_eq!(general("2 2\n1\n2\n3"), Err(12), "the end before the fourth entry");
    assert_eq!(general("1 1\n5\nx"), Err(12), "whatever stands after the last");
}

/// Sizes and lengths that the writer is not lent.
#[test]
fn the_writer_checks_in_its_order() {
    for market in MARKETS {
        let floats = market.floats;
        let bad = vec![0.5; floats];
        let write = |bytes, n, a: &[f64]| market.write_into(bytes, n, a).map(|_| ());
        for n in [33, 1 << 31, 1 << 32, usize::MAX] {
            assert_eq!(write(0, n, &[]), Err(1), "{n}");
            assert_eq!(write(MARKET_BYTES, n, &bad), Err(1), "{n}");
        }
        for bytes in [0, 47, MARKET_BYTES - 1, MARKET_BYTES + 1, 65_536] {
            assert_eq!(write(bytes, 1, &vec![0.0; floats]), Err(2), "{bytes}");
            assert_eq!(write(bytes, 1, &bad), Err(2), "{bytes}");
        }
        for length in [0, floats - 1, floats + 1, 4 * floats] {
            assert_eq!(write(MARKET_BYTES, 1, &vec![0.0; length]), Err(2), "{length}");
            assert_eq!(write(MARKET_BYTES, 1, &vec![0.5; length]), Err(2), "{length}");
        }
        assert_eq!(write(MARKET_BYTES, 1, &bad), Err(20));
        assert_eq!(write(MARKET_BYTES, 0, &[]), Ok(()));
    }
}

#[test]
fn what_is_no_whole_number_is_not_written() {
    let tiny = f64::from_bits(1);
    let none = [0.5, -0.5, 1.0 + f64::EPSILON, tiny, -tiny, 4_503_599_627_370_495.5, 1e300];
    for re in [&none[..], &[f64::NAN, -f64::NAN, f64::INFINITY, f64::NEG_INFINITY]].concat() {
        assert_eq!(write(1, &[re]), Err(20), "{re}");
        // in the last place, too
        assert_eq!(write(2, &[1.0, 2.0, 3.0, re]), Err(20), "{re}");
    }
    for market in MARKETS {
        for place in (0..4 * market.floats).filter(|place| place % market.floats != 0) {
            let mut a = records(&market, &[1.0, 2.0, 3.0, 4.0]);
            let mut with = |slope: f64| {
                a[place] = slope;
                market.write_into(MARKET_BYTES, 2, &a)
            };
            for slope in [1.0, -1.0, tiny, f64::NAN, f64::INFINITY] {
                assert_eq!(with(slope), Err(20), "{slope} at {place}");
            }
            assert_eq!(with(-0.0), write(2, &[1.0, 2.0, 3.0, 4.0]), "-0 is zero");
        }
    }
}

/// 65,536 bytes are read, one more is refused before all else.
#[test]
fn a_text_has_at_most_65536_bytes() {
    let long = |bytes: usize, rest: &str| {
        let comment = "c".repeat(bytes - GENERAL.len() - rest.len() - 2);
        let text = format!("{GENERAL}%{comment}\n{rest}");
        assert_eq!(text.len(), bytes);
        read(text.as_bytes())
    };
    assert_eq!(long(65_536, "1 1\n5\n"), Ok(vec![5.0]));
    assert_eq!(long(65_537, "1 1\n5\n"), Err(10));
    assert_eq!(long(65_536, "1 2\n"), Err(11));
    assert_eq!(long(65_537, "1 2\n"), Err(10));
    assert_eq!(long(65_536, "33 33\n"), Err(1));
    assert_eq!(long(65_537, "33 33\n"), Err(10));
    assert_eq!(long(65_536, "1 1\n5\n5"), Err(12));
    assert_eq!(long(65_537, "1 1\n5\n5"), Err(10));
    assert_eq!(read(&vec![b'%'; 1 << 20]), Err(10));
}

#[test]
fn a_text_may_be_cut_anywhere() {
    for (head, entries) in [
        (format!("{GENERAL}% of the desk\n02 2\n"), "12\n-3\n0\n9007199254740992\n"),
        (format!("{SYMMETRIC}%\n%\n2 002\n"), "-1\n007\n-0\n"),
        (format!("{GENERAL}1 1\n"), "-12\n"),
    ] {
        let text = [head.as_bytes(), entries.as_bytes()].concat();
        assert!(read(&text).is_ok(), "{entries:?}");
        for end in 0..text.len() {
            let wanted = if end < head.len() { 10 } else { 12 };
            assert_eq!(read(&text[..end]), Err(wanted), "cut after {end}");
        }
        for byte in 0..=255 {
            assert_eq!(read(&[&text[..], &[byte]].concat()), Err(12), "{byte} after the last");
        }
    }
}

/// The lines of a text, made without the library.
fn text_of(n: usize, real: &[f64]) -> Vec<u8> {
    let entry = |place: usize| format!("{}\n", real[place % n * n + place / n] as i64);
    let entries: String = (0..n * n).map(entry).collect();
    format!("{GENERAL}{n} {n}\n{entries}").into_bytes()
}

/// A whole number of any length, with a minus or without.
fn whole(random: &mut Random) -> f64 {
    let magnitude = match random.below(8) {
        0 => random.choose(&[0, 1, (1 << 53) - 1, 1 << 53]),
        _ => random.word() >> (11 + random.below(53)),
    };
    let sign = random.choose(&[1.0, -1.0]);
    sign * magnitude as f64
}

#[test]
fn what_is_written_is_read() {
    let mut random = Random::new(0x3a7);
    for n in (0..=32).chain([32; 4]) {
        let real: Vec<f64> = (0..n * n).map(|_| whole(&mut random)).collect();
        let text = write(n, &real).expect("whole numbers");
        assert_eq!(text, text_of(n, &real), "n = {n}");
        let back = read(&text);
        // -0 became +0, and nothing else changed
        let wanted = real.iter().map(|float| (*float + 0.0).to_bits()).collect();
        assert_eq!(bits(&back), Ok(wanted), "n = {n}");
        assert_eq!(write(n, &back.expect("a matrix")), Ok(text), "n = {n}");
    }
}

/// The longest text that is written: all entries of 16 digits, with a minus.
#[test]
fn the_longest_text_fits() {
    let real = vec![-9_007_199_254_740_992.0; 1024];
    let text = write(32, &real).expect("whole numbers");
    assert_eq!(text.len(), GENERAL.len() + "32 32\n".len() + 1024 * "-9007199254740992\n".len());
    assert_eq!(read(&text), Ok(real));
}

/// What a symmetric text gives is its own transpose, and is written as a general text.
#[test]
fn a_symmetric_text_is_written_as_a_general_one() {
    let mut random = Random::new(0x5e1f);
    for n in 0..=32 {
        let lower: Vec<f64> = (0..n * (n + 1) / 2).map(|_| whole(&mut random)).collect();
        let lines: String = lower.iter().map(|float| format!("{}\n", *float as i64)).collect();
        let real = symmetric(&format!("{n} {n}\n{lines}")).expect("a matrix");
        let mut entries = lower.iter();
        for c in 0..n {
            for r in c..n {
                let entry = *entries.next().expect("an entry");
                assert_eq!((real[r * n + c], real[c * n + r]), (entry, entry), "{r} {c} of {n}");
            }
        }
        assert_eq!(write(n, &real), Ok(text_of(n, &real)));
    }
}

/// The header's functions, compiled by a C compiler.
#[test]
fn the_header_has_them_too() {
    let strict = [&c::FLAGS[..], &["-Werror"]].concat();
    let ran = c::run("market", include_str!("market.c"), &strict);
    assert!(ran.good, "{}", ran.err);
    let written = format!("{GENERAL}2 2\n1\n-2\n-2\n3\n");
    let length = written.len();
    let record = |floats: &str| {
        let zeros = MARKET_BYTES - length;
        format!("0 2: {floats}\n0 {length} {zeros}\n{written}2 2\n")
    };
    let dual = record("1 0 -2 0 -2 0 3 0");
    let hyperdual = record("1 0 0 0 -2 0 0 0 -2 0 0 0 3 0 0 0");
    assert_eq!(ran.out, format!("0 2\n{dual}{hyperdual}"));
}
