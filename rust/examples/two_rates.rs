//! A reel that was projected at one rate up to the change of projectors and at another after it,
//! neither known exactly: where its last subtitle comes, how far it moves with each rate, and with
//! both at once.
//!
//! The cues of the old print are counted in frames, so their times hang on both rates; the times at
//! which the same lines are heard on the new print were taken by a clock. A rate and an offset are
//! fitted by least squares over `HyperDual64`, whose parts carry the derivatives through the solve.
//!
//!     cargo run --example two_rates
use evindrast::{HyperDual64, Matrix, Refusal, LU};

/// Frames before the change of projectors.
const CHANGE: f64 = 14_400.0;

/// The cues, in frames of the old print.
const CUES: [f64; 6] = [288.0, 2_292.0, 7_230.0, 15_360.0, 22_410.0, 28_506.0];

/// Where the same lines are heard on the new print, in seconds.
const HEARD: [f64; 6] = [12.9, 99.65, 313.55, 664.1, 957.4, 1_211.0];

/// The last subtitle, in frames of the old print.
const LAST: f64 = 34_116.0;

/// The time of a frame: the first part at one rate, the second at the other.
fn seconds(frames: f64, rates: [HyperDual64; 2]) -> HyperDual64 {
    let part = |frames: f64, rate: HyperDual64| HyperDual64::from_re(frames) / rate;
    if frames < CHANGE {
        part(frames, rates[0])
    } else {
        part(CHANGE, rates[0]) + part(frames - CHANGE, rates[1])
    }
}

/// When the last subtitle comes on the new print, at these two rates of the old one.
fn last_subtitle(rates: [HyperDual64; 2]) -> Result<HyperDual64, Refusal> {
    let cues = CUES.map(|frames| seconds(frames, rates));
    let sum = |of: &dyn Fn(HyperDual64, f64) -> HyperDual64| -> HyperDual64 {
        cues.iter().zip(HEARD).map(|(cue, heard)| of(*cue, heard)).sum()
    };
    let normal = Matrix::from_rows([
        [sum(&|cue, _| cue * cue), sum(&|cue, _| cue)],
        [sum(&|cue, _| cue), HyperDual64::from_re(CUES.len() as f64)],
    ]);
    let right = [sum(&|cue, heard| cue * heard), sum(&|_, heard| HyperDual64::from_re(heard))];
    let fit = LU::new(&normal)?.solve(&right)?;
    Ok(fit[0] * seconds(LAST, rates) + fit[1])
}

fn main() -> Result<(), Refusal> {
    let rates =
        [HyperDual64::from_re(24.0).derivative1(), HyperDual64::from_re(25.0).derivative2()];
    let last = last_subtitle(rates)?;
    println!("the last subtitle comes at {:.3} s", last.re);
    println!("it moves by {:.3} s a frame of the first rate", last.eps1);
    println!("        and {:.3} s a frame of the second", last.eps2);
    println!("the one slope moves by {:.4} s a frame of the other rate", last.eps1eps2);
    Ok(())
}

/// The slopes against differences of the values.
#[test]
fn slopes_are_differences() {
    let at = |first: f64, second: f64| {
        last_subtitle([first, second].map(HyperDual64::from_re)).unwrap().re
    };
    let rates =
        [HyperDual64::from_re(24.0).derivative1(), HyperDual64::from_re(25.0).derivative2()];
    let last = last_subtitle(rates).unwrap();
    let h = 1e-3;
    let first = (at(24.0 + h, 25.0) - at(24.0 - h, 25.0)) / (2.0 * h);
    let second = (at(24.0, 25.0 + h) - at(24.0, 25.0 - h)) / (2.0 * h);
    let corners = at(24.0 + h, 25.0 + h) - at(24.0 + h, 25.0 - h) - at(24.0 - h, 25.0 + h)
        + at(24.0 - h, 25.0 - h);
    let mixed = corners / (4.0 * h * h);
    for (slope, difference) in [(last.eps1, first), (last.eps2, second), (last.eps1eps2, mixed)] {
        assert!(
            slope != 0.0 && (slope - difference).abs() < 1e-4 * slope.abs(),
            "{last:?} {mixed}"
        );
    }
}
