//! `sph_j1_series`: its values, where it is `sph_j1`, and the records that have it not.
use evindrast::{exports, supplied, Dual2_64, Dual3_64, Dual64, DualNum, Function, Refusal};
use evindrast::{HyperDual64, HyperHyperDual64};

const NUMBER: u32 = Function::SphJ1Series as u32;

const EPSILON: f64 = f64::EPSILON;

fn words<D: DualNum>(x: D) -> Vec<u64> {
    x.parts().iter().map(|part| part.to_bits()).collect()
}

/// Some slopes, for either record.
fn cubic(re: f64) -> Dual3_64 {
    Dual3_64::new(re, 0.7, -1.5, 0.1)
}

fn mixed(re: f64) -> HyperHyperDual64 {
    HyperHyperDual64::new(re, 0.7, -1.5, 0.1, 4.0, 0.6, -0.9, 11.0)
}

#[test]
fn third_derivatives_at_zero() {
    let third = 0x3fd5555555555555;
    let fifth = 0xbfc999999999999a;
    let x = Dual3_64::from_re(0.0).derivative();
    assert_eq!(words(x.sph_j1_series()), [0, third, 0, fifth]);
    assert_eq!(words(x.sph_j1()), [0, third, 0, 0]);
    let x = HyperHyperDual64::from_re(0.0).derivative1().derivative2().derivative3();
    assert_eq!(words(x.sph_j1_series()), [0, third, third, third, 0, 0, 0, fifth]);
    assert_eq!(words(x.sph_j1()), [0, third, third, third, 0, 0, 0, 0]);
}

#[test]
fn the_rule_below_epsilon() {
    let below = f64::from_bits(EPSILON.to_bits() - 1);
    for re in [0.0, -0.0, 5e-324, -1e-310, 2f64.powi(-300), 1e-18, -1e-17, below, -below] {
        let (x, y) = (cubic(re), mixed(re));
        assert_eq!(words(x.sph_j1_series()), words(x / 3.0 - ((x * x) * x) / 30.0), "{re:e}");
        assert_eq!(words(y.sph_j1_series()), words(y / 3.0 - ((y * y) * y) / 30.0), "{re:e}");
        assert_ne!(words(x.sph_j1_series()), words(x.sph_j1()), "{re:e}");
        assert_ne!(words(y.sph_j1_series()), words(y.sph_j1()), "{re:e}");
    }
}

/// Records at which a product with a thirtieth, or the cube multiplied from the right, would give
/// another last digit.
#[test]
fn divisor_and_grouping_show() {
    let x = Dual3_64::new(0.0, 4.7, 0.0, 0.0);
    assert_eq!(x.sph_j1_series().v3.to_bits(), 0xc034c3bcd35a8589);
    let x = HyperHyperDual64::new(0.0, 4.7, 4.7, 4.7, 0.0, 0.0, 0.0, 0.0);
    assert_eq!(x.sph_j1_series().eps1eps2eps3.to_bits(), 0xc034c3bcd35a8589);
    let tie = Dual3_64::new(f64::from_bits(0x3caffffffffffffe), 1.0, -2f64.powi(51), -1.5);
    assert_eq!(tie.sph_j1_series().v3.to_bits(), 0xbfd999999999999b);
    let [a, b, c] = [0.4, 8.0, 0.5].map(|part| part * 2f64.powi(53));
    let x = HyperHyperDual64::new(2f64.powi(-53), 0.7, -1.5, 0.1, a, b, c, 0.0);
    assert_eq!(x.sph_j1_series().eps1eps2eps3.to_bits(), 0x4002be76c8b43957);
}

#[test]
fn elsewhere_it_is_sph_j1() {
    let above = f64::from_bits(EPSILON.to_bits() + 1);
    let infinity = f64::INFINITY;
    let reals = [EPSILON, above, 1e-8, 0.5, 1.0, 3.0, 1e5, 1e300, f64::MAX, infinity];
    for re in reals.iter().flat_map(|re| [*re, -re]).chain([f64::NAN]) {
        assert_eq!(words(cubic(re).sph_j1_series()), words(cubic(re).sph_j1()), "{re:e}");
        assert_eq!(words(mixed(re).sph_j1_series()), words(mixed(re).sph_j1()), "{re:e}");
    }
}

#[test]
fn small_real_parts_read_no_sine() {
    let nan = [f64::NAN; 2];
    let series = |x: Dual3_64| supplied::record(Function::SphJ1Series, &[x], 0, &nan).unwrap();
    assert_eq!(words(series(cubic(1e-17))), words(cubic(1e-17).sph_j1_series()));
    assert!(series(cubic(EPSILON)).parts().iter().all(|part| part.is_nan()));
}

/// By number and by name, in buffers of the lengths that the other two kinds would want.
fn has_it_not<D: DualNum>() {
    let mut out = vec![-7.25; D::PARTS];
    let records = vec![0.0; D::PARTS];
    assert_eq!(exports::record(D::KIND as u32, NUMBER, 0, &records, &[0.0, 1.0], &mut out), 2);
    assert!(out.iter().all(|x| *x == -7.25), "nothing is written");
    let named = supplied::record(Function::SphJ1Series, &[D::ZERO], 0, &[0.0, 1.0]);
    assert_eq!(named.err(), Some(Refusal::WrongLength));
}

#[test]
fn the_other_records_refuse_it() {
    has_it_not::<Dual64>();
    has_it_not::<Dual2_64>();
    has_it_not::<HyperDual64>();
}

fn wants_its_lengths<D: DualNum>() {
    for records in [0, D::PARTS - 1, D::PARTS, D::PARTS + 1, 2 * D::PARTS] {
        for floats in 0..4 {
            for length in [0, 1, D::PARTS - 1, D::PARTS, 2 * D::PARTS] {
                let (lent, floats) = (vec![0.0; records], vec![1.0; floats]);
                let mut out = vec![-7.25; length];
                let number = exports::record(D::KIND as u32, NUMBER, 0, &lent, &floats, &mut out);
                let fits = (records, floats.len(), length) == (D::PARTS, 2, D::PARTS);
                assert_eq!(number, if fits { 0 } else { 2 }, "{records} {floats:?} {length}");
                assert_eq!(out.iter().all(|x| *x == -7.25), !fits, "written or not");
            }
        }
    }
}

#[test]
fn other_lengths_are_refused() {
    wants_its_lengths::<Dual3_64>();
    wants_its_lengths::<HyperHyperDual64>();
}
