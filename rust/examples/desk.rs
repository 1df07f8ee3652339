//! Rate and offset of a reel from a file of the sound desk, and how far the last subtitle moves with
//! the frame of one cue that is in doubt: `examples/desk.c` in Rust, which says what the file holds.
//!
//!     cargo run --example desk ../examples/desk.mtx
use evindrast::{Dual64, Matrix, LU};
use std::io::Read;

/// The last subtitle, in frames of the old print.
const LAST: f64 = 34_116.0;

/// The cue in doubt, in frames of the old print, and the millisecond at which it is heard.
const CUE: [f64; 2] = [28_506.0, 1_577_990.0];

/// Rate, offset and last subtitle in milliseconds, with their slopes in the frame of the cue in
/// doubt; or why there are none.
fn fit(text: &[u8]) -> Result<[Dual64; 3], String> {
    let sums = Matrix::<Dual64>::from_market(text).map_err(|refusal| refusal.to_string())?;
    if sums.n() != 3 || (0..3).any(|i| sums.row(i) != sums.column(i)) {
        return Err("wanted are the sums of a fit, a symmetric matrix, 3 by 3".to_string());
    }
    // equal cues leave nothing of the product, but for rounding
    let product = sums[(0, 0)].re * sums[(1, 1)].re;
    if product - sums[(0, 1)].re.powi(2) <= 1e-9 * product.abs() {
        return Err("its cues tell no rate from an offset".to_string());
    }
    let [frame, heard] = CUE;
    // the sums, with the part that the cue in doubt has in them for a slope
    let sum = |r, c, slope| Dual64::new(sums[(r, c)].re, slope);
    let cues = sum(0, 1, 1.0);
    let normal = Matrix::from_rows([[sum(0, 0, 2.0 * frame), cues], [cues, sum(1, 1, 0.0)]]);
    let solved = LU::new(&normal).and_then(|lu| lu.solve(&[sum(0, 2, heard), sum(1, 2, 0.0)]));
    let x = solved.map_err(|refusal| refusal.to_string())?;
    Ok([x[0], x[1], x[0] * LAST + x[1]])
}

/// The bytes of the file that is named, or of standard input.
fn file() -> std::io::Result<Vec<u8>> {
    if let Some(name) = std::env::args_os().nth(1) {
        return std::fs::read(name);
    }
    let mut text = Vec::new();
    std::io::stdin().read_to_end(&mut text)?;
    Ok(text)
}

fn main() {
    let fitted = file().map_err(|error| error.to_string()).and_then(|text| fit(&text));
    let [rate, offset, last] = fitted.unwrap_or_else(|why| {
        eprintln!("{why}");
        std::process::exit(1)
    });
    println!("rate   {:.6} ms a frame, slope {:.6}", rate.re, rate.eps);
    println!("offset {:.3} ms, slope {:.3}", offset.re, offset.eps);
    println!("last subtitle at {:.3} s, slope {:.4}", last.re / 1e3, last.eps / 1e3);
}

#[cfg(test)]
mod tests {
    use super::*;

    const FILE: &str = include_str!("../../examples/desk.mtx");

    /// The file's sums, with the cue in doubt so many frames later.
    fn sums(frames: i64) -> [i64; 6] {
        let lines = FILE.lines().filter(|line| !line.starts_with('%')).skip(1);
        let sums: Vec<i64> = lines.map(|line| line.parse().unwrap()).collect();
        let [squares, cues, products, count, times, time_squares] = sums[..].try_into().unwrap();
        let [frame, heard] = CUE.map(|number| number as i64);
        let squares = squares + (2 * frame + frames) * frames;
        [squares, cues + frames, products + heard * frames, count, times, time_squares]
    }

    fn text(sums: [i64; 6]) -> String {
        let lines = sums.map(|sum| format!("{sum}\n")).concat();
        format!("%%MatrixMarket matrix array integer symmetric\n3 3\n{lines}")
    }

    /// Rate, offset and last subtitle, by Cramer's rule.
    fn by_cramer([squares, cues, products, count, times, _]: [i64; 6]) -> [f64; 3] {
        let minor = |a: i64, b: i64, c: i64, d: i64| {
            (i128::from(a) * i128::from(d) - i128::from(b) * i128::from(c)) as f64
        };
        let determinant = minor(squares, cues, cues, count);
        let rate = minor(products, cues, times, count) / determinant;
        let offset = minor(squares, products, cues, times) / determinant;
        [rate, offset, rate * LAST + offset]
    }

    #[test]
    fn values_and_slopes_are_those_of_cramers_rule() {
        let (fitted, wanted) = (fit(FILE.as_bytes()).unwrap(), by_cramer(sums(0)));
        let (later, earlier) = (by_cramer(sums(1)), by_cramer(sums(-1)));
        for place in 0..3 {
            let (x, slope) = (fitted[place], (later[place] - earlier[place]) / 2.0);
            assert!((x.re - wanted[place]).abs() < 1e-9 * x.re.abs(), "{x:?}, not {wanted:?}");
            assert!((x.eps - slope).abs() < 1e-5 * slope.abs(), "{x:?}, not {slope}");
        }
    }

    #[test]
    fn what_cannot_be_fitted_is_refused_in_words() {
        let refused = |text: &str| fit(text.as_bytes()).unwrap_err();
        assert!(refused(&FILE.replace("integer", "real")).starts_with("refused 10: "));
        assert!(refused(&FILE.replace("3 3", "3 4")).starts_with("refused 11: "));
        assert!(refused(&format!("{FILE}\n")).starts_with("refused 12: "));
        let small = "%%MatrixMarket matrix array integer general\n1 1\n7\n";
        assert!(refused(small).starts_with("wanted are the sums of a fit"));
        let equal = text([3 * 49, 3 * 7, 3 * 7 * 500, 3, 3 * 500, 3 * 500 * 500]);
        assert_eq!(refused(&equal), "its cues tell no rate from an offset");
    }
}
