//! The loudness of a reel about the centre of its gain curve, modelled as `CENTRE + SWING * j1(x)` and
//! continued from x = 0 by its Taylor polynomial of third order: the derivatives there by `sph_j1`
//! and by `sph_j1_series`, and how far each continuation is off.
//!
//!     cargo run --example envelope
use evindrast::{Dual3_64, DualNum};

/// The loudness at the centre, and by how much j1 is taken.
const CENTRE: f64 = 0.6;
const SWING: f64 = 0.9;

/// How far from the centre the envelope is continued.
const PLACES: [f64; 3] = [0.25, 0.5, 1.0];

/// The envelope with its derivatives at the centre, by one of the two functions.
fn envelope(j1: fn(&Dual3_64) -> Dual3_64) -> Dual3_64 {
    j1(&Dual3_64::from_re(0.0).derivative()) * SWING + CENTRE
}

/// Continued by its Taylor polynomial.
fn continued(e: Dual3_64, x: f64) -> f64 {
    e.re + x * (e.v1 + x * (e.v2 / 2.0 + x * e.v3 / 6.0))
}

/// How far the continuation is off at x, where the envelope itself is known in closed form.
fn off(e: Dual3_64, x: f64) -> f64 {
    continued(e, x) - (CENTRE + SWING * (x.sin() - x * x.cos()) / (x * x))
}

fn main() {
    println!("at the centre    value    slope   second    third");
    let (plain, series) = (envelope(Dual3_64::sph_j1), envelope(Dual3_64::sph_j1_series));
    for (name, e) in [("sph_j1", plain), ("sph_j1_series", series)] {
        println!("{name:13} {:8.4} {:8.4} {:8.4} {:8.4}", e.re, e.v1, e.v2, e.v3);
    }
    println!("\ncontinued, off   x = 0.25    x = 0.5    x = 1.0");
    for (name, e) in [("sph_j1", plain), ("sph_j1_series", series)] {
        let [quarter, half, one] = PLACES.map(|x| off(e, x));
        println!("{name:13} {quarter:11.7} {half:10.7} {one:10.7}");
    }
}

/// The next term of the series bounds what is off: x³/30 without a third derivative, x⁵/840 with it.
#[test]
fn the_third_derivative_keeps_the_envelope() {
    for x in PLACES {
        let (cubic, fifth) = (SWING * x.powi(3) / 30.0, SWING * x.powi(5) / 840.0);
        let without = off(envelope(Dual3_64::sph_j1), x);
        let with = off(envelope(Dual3_64::sph_j1_series), x);
        assert!(without > 0.9 * cubic && without < cubic, "{without} at {x}");
        assert!(with < 0.0 && with > -fifth, "{with} at {x}");
    }
}
