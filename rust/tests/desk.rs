//! The program of examples/desk.c: its figures against a fit of the same file in whole numbers, its
//! slopes against differences of that, and what it says to files that are not to be fitted.
mod c;

use std::path::{Path, PathBuf};
use std::process::Command;

const SOURCE: &str = include_str!("../../examples/desk.c");
const FILE: &str = include_str!("../../examples/desk.mtx");

/// The sums of a fit: of the squares of the cues, of the cues, of the products of cues and times, of
/// the times and of their squares, with the number of cues after the third.
type Sums = [i128; 6];

fn sums() -> Sums {
    let lines = FILE.lines().filter(|line| !line.starts_with('%')).skip(1);
    let sums: Vec<i128> = lines.map(|line| line.parse().expect("a whole number")).collect();
    sums.try_into().expect("six sums")
}

/// A symmetric file of these sums.
fn symmetric(sums: Sums) -> String {
    let lines = sums.map(|sum| format!("{sum}\n")).concat();
    format!("%%MatrixMarket matrix array integer symmetric\n3 3\n{lines}")
}

/// The sums of these cues and times.
fn summed(lines: &[[i128; 2]]) -> Sums {
    let sum = |of: fn(i128, i128) -> i128| lines.iter().map(|[cue, time]| of(*cue, *time)).sum();
    let (squares, products) = (sum(|cue, _| cue * cue), sum(|cue, time| cue * time));
    let (cues, count, times) = (sum(|cue, _| cue), sum(|_, _| 1), sum(|_, time| time));
    [squares, cues, products, count, times, sum(|_, time| time * time)]
}

/// A constant of the program.
fn constant(name: &str) -> f64 {
    let start = SOURCE.find(&format!(" {name} = ")).expect("the constant") + name.len() + 4;
    let number = SOURCE[start..].split([',', ';']).next().expect("its end");
    number.parse().expect("a number")
}

/// With the cue in doubt so many frames later.
fn moved([squares, cues, products, count, times, time_squares]: Sums, frames: i128) -> Sums {
    let (cue, heard) = (constant("cue") as i128, constant("heard") as i128);
    let squares = squares + (cue + frames).pow(2) - cue.pow(2);
    [squares, cues + frames, products + heard * frames, count, times, time_squares]
}

/// Rate, offset and last subtitle in milliseconds, and the mean square of what is left, by
/// determinants.
fn fit([squares, cues, products, count, times, time_squares]: Sums) -> [f64; 4] {
    let determinant = squares * count - cues * cues;
    let over = |minor: i128| minor as f64 / determinant as f64;
    let rate = products * count - cues * times;
    let offset = squares * times - cues * products;
    let rest = time_squares * determinant - products * rate - times * offset;
    let last = constant("last") as i128 * rate + offset;
    [over(rate), over(offset), over(last), over(rest) / count as f64]
}

/// Their slopes in the frame of the cue in doubt, by differences.
fn slopes(sums: Sums) -> [f64; 4] {
    let (later, earlier) = (fit(moved(sums, 1)), fit(moved(sums, -1)));
    [0, 1, 2, 3].map(|place| (later[place] - earlier[place]) / 2.0)
}

fn near(x: f64, y: f64, bound: f64) {
    assert!((x - y).abs() < bound, "{x} and {y}");
}

/// The numbers that a program printed, in their order.
fn figures(text: &str) -> Vec<f64> {
    let words = text.split(|c: char| c.is_whitespace() || c == ',' || c == ':');
    words.filter_map(|word| word.parse().ok()).collect()
}

fn right(ran: &c::Ran, sums: Sums, doubt: f64, word: &str) {
    assert!(ran.good && ran.err.is_empty(), "{}", ran.err);
    let (values, slopes) = (fit(sums), slopes(sums));
    let [rate, rate_slope, offset, offset_slope, off, last, last_slope, moves, cue, frames] =
        <[f64; 10]>::try_from(figures(&ran.out)).expect("ten figures");
    near(rate, values[0], 1e-6);
    near(rate_slope, slopes[0], 1e-6);
    near(offset, values[1], 1e-3);
    near(offset_slope, slopes[1], 1e-3);
    near(off, values[3].sqrt(), 0.51);
    near(last, values[2] / 1e3, 1e-3);
    near(last_slope, slopes[2] / 1e3, 1e-4);
    near(moves, (doubt * slopes[2] / 1e3).abs(), 1e-3);
    assert_eq!((cue, frames), (constant("cue"), doubt));
    assert!(ran.out.ends_with(&format!("it is {word}\n")), "{}", ran.out);
}

fn built(name: &str) -> PathBuf {
    let strict = [&c::FLAGS[..], &["-Werror"]].concat();
    c::built(name, SOURCE, &strict)
}

/// The program with a file of this name and these bytes.
fn fed(program: &Path, name: &str, text: impl AsRef<[u8]>) -> c::Ran {
    let file = Path::new(env!("CARGO_TARGET_TMPDIR")).join(format!("{name}.mtx"));
    std::fs::write(&file, text).expect("a file of the target folder");
    c::ran(Command::new(program).arg(file))
}

#[test]
fn the_last_subtitle_is_firm_as_it_stands() {
    let program = built("desk");
    let file = Path::new(env!("CARGO_MANIFEST_DIR")).join("../examples/desk.mtx");
    let named = c::ran(Command::new(&program).arg(&file));
    right(&named, sums(), constant("doubt"), "firm");
    let input = std::fs::File::open(&file).expect("the file");
    let piped = c::ran(Command::new(&program).stdin(input));
    assert_eq!((piped.good, piped.out, piped.err), (true, named.out, String::new()));
}

#[test]
fn a_frame_more_of_doubt_makes_it_loose() {
    let source = SOURCE.replace("doubt = 2;", "doubt = 3;");
    let ran = fed(&c::built("desk_doubt", &source, &c::FLAGS), "desk_doubt", FILE);
    right(&ran, sums(), 3.0, "loose");
}

/// Other files: two cues, which fit exactly, and a general one of a thousand and one.
#[test]
fn other_sums_are_fitted_too() {
    let program = built("desk_other");
    let two = summed(&[[288, 17_184], [28_506, 1_577_990]]);
    right(&fed(&program, "two", symmetric(two)), two, 2.0, "loose");
    let line = |i: i128| [29 * i + 7, 1605 * i + 1600 - 40 * (i % 3)];
    let lines: Vec<_> = (0..1000).map(line).chain([[28_506, 1_577_990]]).collect();
    let [squares, cues, products, count, times, time_squares] = summed(&lines);
    let rows = [squares, cues, products, cues, count, times, products, times, time_squares];
    let entries = rows.map(|sum| format!("{sum}\n")).concat();
    let general = format!("%%MatrixMarket matrix array integer general\n3 3\n{entries}");
    right(&fed(&program, "thousand", general), summed(&lines), 2.0, "firm");
}

/// Words and no figures.
fn refused(ran: c::Ran, words: &str) {
    assert!(!ran.good && ran.out.is_empty(), "{}", ran.out);
    assert!(ran.err.contains(words) && ran.err.lines().count() == 1, "{}, not {words}", ran.err);
}

#[test]
fn a_file_that_cannot_be_read_is_refused_in_words() {
    refused(c::run("desk_empty", SOURCE, &c::FLAGS), "standard input: it cannot be read: it is");
    let program = built("desk_unreadable");
    let refused = |name, text: &str, words| refused(fed(&program, name, text), words);
    refused("real", &FILE.replace("integer", "real"), "real.mtx: it cannot be read: it is above");
    refused("letter", &FILE.replace("76086", "76O86"), "or its size line or an entry is not");
    refused("above", &FILE.replace("76086", "9007199254740993"), "or an entry is above 2^53");
    let long = FILE.replace("% The", &format!("%{}\n% The", "x".repeat(65_536 - FILE.len() - 1)));
    assert_eq!(long.len(), 65_537);
    refused("long", &long, "it cannot be read: it is above 65,536 bytes");
    refused("oblong", &FILE.replace("3 3", "3 4"), "its matrix has not as many columns as rows");
    refused("large", &FILE.replace("3 3", "33 33"), "its matrix has more than 32 rows");
    refused("small", &FILE.replace("3 3", "2 2"), "its matrix is not 3 by 3");
    let words = "it ends before its last entry, or something stands after that";
    refused("cut", &FILE[..FILE.len() - 1], words);
    refused("longer", &format!("{FILE}0\n"), words);
}

#[test]
fn the_longest_file_is_read() {
    let filled = FILE.replace("% The", &format!("%{}\n% The", "x".repeat(65_536 - FILE.len() - 2)));
    assert_eq!(filled.len(), 65_536);
    right(&fed(&built("desk_filled"), "filled", filled), sums(), 2.0, "firm");
}

#[test]
fn sums_of_no_fit_are_refused_in_words() {
    let program = built("desk_sums");
    let refused = |name, text: String, words| refused(fed(&program, name, text), words);
    let general = "%%MatrixMarket matrix array integer general\n3 3\n1\n2\n3\n4\n5\n6\n7\n8\n9\n";
    refused("general", general.to_string(), "its matrix is not symmetric");
    let one = summed(&[[288, 17_184]]);
    refused("one", symmetric(one), "a rate and an offset take two cues at least");
    let close = "its cues are too close to each other to tell a rate from an offset, or no cues";
    refused("equal", symmetric(summed(&[[2292, 127_995]; 3])), close);
    // P3: rounding leaves LU a pivot of 2^-47
    refused("forty_nine", symmetric([49, 49, 49, 49, 49, 49]), close);
    refused("negative", symmetric([-9, 1, 1, 9, 1, 1]), close);
    let mut less = sums();
    less[5] /= 2;
    refused("less", symmetric(less), "its sums contradict each other");
}

#[test]
fn what_is_no_file_is_refused_in_words() {
    let program = built("desk_no_file");
    let named = |name: &str| c::ran(Command::new(&program).arg(name));
    refused(named("no/such.mtx"), "no/such.mtx: there is no such file, or it may not be read");
    refused(named(env!("CARGO_MANIFEST_DIR")), ": it could not be read");
}
