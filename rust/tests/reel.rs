//! The program of examples/reel.c: its figures against a fit without dual numbers, its slopes
//! against differences of that, and what it says to tables that are not to be fitted.
mod c;

use evindrast::{Dual64, Matrix, LU};

const SOURCE: &str = include_str!("../../examples/reel.c");

/// Where the program's table stands in its text.
fn table() -> std::ops::Range<usize> {
    let start = SOURCE.find("lines[] = {").expect("the table") + "lines[] = {".len();
    start..start + SOURCE[start..].find("};").expect("its end")
}

/// The program's table: cues and the seconds at which they are heard.
fn lines() -> Vec<[f64; 2]> {
    let number = |text: &str| text.trim().parse::<f64>().expect("a number");
    let line = |line: &str| {
        let (cue, heard) = line.trim().strip_prefix('{')?.strip_suffix("},")?.split_once(',')?;
        Some([number(cue), number(heard)])
    };
    SOURCE[table()].lines().filter_map(line).collect()
}

/// A constant of the program.
fn constant(name: &str) -> f64 {
    let start = SOURCE.find(&format!(" {name} = ")).expect("the constant") + name.len() + 4;
    let number = SOURCE[start..].split([',', ';']).next().expect("its end");
    number.parse().expect("a number")
}

/// The time at which a frame was shown.
fn seconds(frames: f64, rate: f64) -> f64 {
    let splice = constant("splice");
    frames.min(splice) / constant("before") + (frames - splice).max(0.0) / rate
}

/// Rate, offset and last subtitle, by sums about the means.
fn fit(lines: &[[f64; 2]], rate: f64) -> [f64; 3] {
    let count = lines.len() as f64;
    let pairs: Vec<_> = lines.iter().map(|[cue, heard]| (seconds(*cue, rate), heard)).collect();
    let cue = pairs.iter().map(|pair| pair.0).sum::<f64>() / count;
    let heard = pairs.iter().map(|pair| pair.1).sum::<f64>() / count;
    let both: f64 = pairs.iter().map(|pair| (pair.0 - cue) * (pair.1 - heard)).sum();
    let square: f64 = pairs.iter().map(|pair| (pair.0 - cue).powi(2)).sum();
    let slope = both / square;
    [slope, heard - slope * cue, heard + slope * (seconds(constant("last"), rate) - cue)]
}

/// Their slopes in the rate after the splice, by differences.
fn slopes(lines: &[[f64; 2]]) -> [f64; 3] {
    let (rate, step) = (constant("after"), 1e-4);
    let (above, below) = (fit(lines, rate + step), fit(lines, rate - step));
    [0, 1, 2].map(|place| (above[place] - below[place]) / (2.0 * step))
}

fn near(x: f64, y: f64, bound: f64) {
    assert!((x - y).abs() < bound, "{x} and {y}");
}

/// The numbers that a program printed, in their order.
fn figures(text: &str) -> Vec<f64> {
    let words = text.split(|c: char| c.is_whitespace() || c == ',' || c == ':');
    words.filter_map(|word| word.parse().ok()).collect()
}

/// With these rows for the program's own.
fn edited(name: &str, rows: &str) -> c::Ran {
    built(name, rows, &c::FLAGS)
}

fn built(name: &str, rows: &str, flags: &[&str]) -> c::Ran {
    let range = table();
    let source = [&SOURCE[..range.start], rows, &SOURCE[range.end..]].concat();
    c::run(&format!("reel_{name}"), &source, flags)
}

/// With these rows after the program's own.
fn longer(name: &str, rows: &str) -> c::Ran {
    edited(name, &format!("{}{rows}\n", &SOURCE[table()]))
}

fn right(ran: &c::Ran, lines: &[[f64; 2]], word: &str) {
    assert!(ran.good && ran.err.is_empty(), "{}", ran.err);
    let (values, slopes) = (fit(lines, constant("after")), slopes(lines));
    let [rate, rate_slope, offset, offset_slope, last, last_slope, moves, doubt] =
        <[f64; 8]>::try_from(figures(&ran.out)).expect("eight figures");
    near(rate, values[0], 1e-6);
    near(offset, values[1], 1e-6);
    near(last, values[2], 1e-3);
    near(rate_slope, slopes[0], 2e-6);
    near(offset_slope, slopes[1], 2e-6);
    near(last_slope, slopes[2], 1e-3);
    near(moves, (constant("doubt") * slopes[2]).abs(), 1e-3);
    near(doubt, constant("doubt"), 1e-12);
    assert!(ran.out.ends_with(&format!("it is {word}\n")), "{}", ran.out);
}

#[test]
fn the_last_subtitle_is_loose_as_it_stands() {
    let strict = [&c::FLAGS[..], &["-Werror"]].concat();
    right(&c::run("reel", SOURCE, &strict), &lines(), "loose");
}

#[test]
fn a_sixth_line_makes_it_firm() {
    let six = [lines(), vec![[31200.0, 1591.86]]].concat();
    right(&longer("six", "{31200, 1591.86},"), &six, "firm");
}

#[test]
fn two_lines_are_enough() {
    let two = [[288.0, 12.89], [15360.0, 679.34]];
    right(&edited("two", "{288, 12.89}, {15360, 679.34}"), &two, "loose");
}

/// Words and no figures.
fn refused(ran: c::Ran, words: &str) {
    assert!(!ran.good && ran.out.is_empty(), "{}", ran.out);
    assert!(ran.err.contains(words) && ran.err.lines().count() == 1, "{}, not {words}", ran.err);
}

#[test]
fn a_table_that_cannot_be_fitted_is_refused_in_words() {
    refused(longer("no_second", "{31200},"), "line 6 has 31200 and 0: wanted are a cue and the");
    refused(edited("no_first_second", "{288}, {2292, 99.71}"), "line 1 has 288 and 0: wanted");
    refused(longer("nan", "{31200, NAN},"), "line 6 has 31200 and nan: wanted");
    refused(longer("nan_cue", "{NAN, 1591.86},"), "line 6 has nan and 1591.86: wanted");
    refused(longer("infinite", "{31200, INFINITY},"), "line 6 has 31200 and inf: wanted");
    refused(longer("earlier", "{20000, 1591.86},"), "both later than in the line before");
    refused(longer("negative", "{31200, -1591.86},"), "line 6 has 31200 and -1591.86: wanted");
    let exchanged = "{288, 12.89}, {7230, 313.48}, {2292, 99.71}, {15360, 679.34}";
    refused(edited("exchanged", exchanged), "line 3 has 2292 and 99.71: wanted");
    let equal = "{2292, 99.71}, {2292, 99.72}, {2292, 99.73}, {2292, 99.74}, {2292, 99.75}";
    refused(edited("equal", equal), "line 2 has 2292 and 99.72: wanted");
    refused(edited("one", "{288, 12.89}"), "a rate and an offset take two lines at least");
    // no table of ISO C is empty; where the compiler takes one, the program says so
    let empty = built("none", "", &["-O2", "-std=gnu11"]);
    refused(empty, "a rate and an offset take two lines at least");
    let close = "{7230, 313.48}, {7230.001, 313.49}, {7230.002, 313.5}";
    refused(edited("close", close), "too close to each other to tell a rate from an offset");
    let large = "{1e200, 1e200}, {2e200, 2e200}, {3e200, 3e200}";
    refused(edited("large", large), "the fit gives no finite numbers");
}

#[test]
fn a_rate_that_is_none_is_refused_in_words() {
    let rates = [("stands", "0", "line 4"), ("nan", "NAN", "line 4"), ("back", "-18", "line 5")];
    for (name, rate, line) in rates {
        let source = SOURCE.replace("after = 18,", &format!("after = {rate},"));
        refused(c::run(&format!("reel_rate_{name}"), &source, &c::FLAGS), line);
    }
}

/// The program's model through the crate; `carried` says whether the matrix has its slopes.
fn by_dual_numbers(carried: bool) -> Dual64 {
    let time = |frames: f64| {
        let (splice, rate) = (constant("splice"), Dual64::new(constant("after"), 1.0));
        let first = frames.min(splice) / constant("before");
        Dual64::from_re((frames - splice).max(0.0)) / rate + first
    };
    let pairs: Vec<_> =
        lines().iter().map(|[cue, heard]| (time(*cue), Dual64::from_re(*heard))).collect();
    let sum = |of: fn(Dual64, Dual64) -> Dual64| -> Dual64 {
        pairs.iter().map(|(cue, heard)| of(*cue, *heard)).sum()
    };
    let entry = |x: Dual64| if carried { x } else { Dual64::from_re(x.re) };
    let cues = entry(sum(|cue, _| cue));
    let normal = Matrix::from_rows([
        [entry(sum(|cue, _| cue * cue)), cues],
        [cues, Dual64::from_re(pairs.len() as f64)],
    ]);
    let right = [sum(|cue, heard| cue * heard), sum(|_, heard| heard)];
    let x = LU::new(&normal).unwrap().solve(&right).unwrap();
    x[0] * time(constant("last")) + x[1]
}

#[test]
fn slopes_of_the_matrix_count() {
    let last = by_dual_numbers(true);
    near(last.re, fit(&lines(), constant("after"))[2], 1e-8);
    near(last.eps, slopes(&lines())[2], 1e-5);
    // without them the slope is another one altogether
    assert!((by_dual_numbers(false).eps - last.eps).abs() > 10.0, "{}", by_dual_numbers(false).eps);
}
