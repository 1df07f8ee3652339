//! The traps of the design page.
use super::{INF, NAN, Row, dual, factored, flat, plain, row, said, with};
use crate::matrices::{Entry, jacobi, lu};
use crate::original::{Dual, Dual2, DualNum, DualNumFloat};
use crate::record::Record;
use crate::supplied::{Outside, Supplied, with_supplied};
use num_traits::One;

pub(super) fn rows() -> Vec<Row> {
    let p = "trap";
    let tiny = f64::from_bits(1);
    let cbrt =
        |f0: f64| with::<Dual2<Supplied>>(&[(Outside::Cbrt, f0)], &[1.0, 1.0, 0.0], |x| x.cbrt());
    let negative = [dual(-0.0, -0.0), dual(1.0, 0.0), dual(0.0, 0.0), dual(-0.0, -0.0)];
    let no_rotation = [dual(-0.0, -0.0), dual(NAN, 0.0), dual(0.0, 0.0), dual(-0.0, -0.0)];
    let after = |entries: &[Entry], limit| jacobi(2, entries, limit);
    let values = |limit| flat(&after(&no_rotation, limit).values);
    let nan_run = after(&no_rotation, 50);
    let atan2 = with_supplied(&[(Outside::Atan, NAN), (Outside::Atan2, 7.0)], || {
        Dual::<Supplied>::of(&[1.0, 1.0]).atan2(Dual::of(&[2.0, 1.0])).parts()
    });
    let edge = f64::EPSILON;
    vec![
        row(
            p,
            "determinant of the 1 by 1 (inf, 1)",
            &[INF, NAN],
            &factored(1, &[dual(INF, 1.0)]).determinant().parts(),
        ),
        said(
            p,
            "[[2^-1074, 1], [0, 1]] singular at",
            Some(1),
            lu(2, &plain(&[tiny, 1.0, 0.0, 1.0])).err(),
        ),
        row(p, "diagonal -0 at limit 0", &[-0.0; 4], &values(0)),
        row(p, "diagonal -0 at limit 1, no rotation", &[0.0; 4], &values(1)),
        said(
            p,
            "a NaN above the diagonal: sweeps, rotations at limit 50",
            (50, 0),
            (nan_run.sweeps, nan_run.rotations),
        ),
        said(p, "[[-0,1],[0,-0]]: rotations at limit 1", 1, after(&negative, 1).rotations),
        row(
            p,
            "cbrt's second factor",
            &[f64::from_bits(0xbfe5555555555556)],
            &[f64::THIRD - f64::one()],
        ),
        row(
            p,
            "cbrt (1,1,0): v2 with 1 supplied",
            &[f64::THIRD * (f64::THIRD - 1.0)],
            &[cbrt(1.0)[2]],
        ),
        row(p, "tanh at 1000", &[NAN], &[dual(1000.0, 1.0).tanh().re]),
        row(p, "powi -1 of 1e100", &[0.0], &[dual(1e100, 1.0).powi(-1).re]),
        row(p, "atan2's first value stays out of re", &[7.0], &atan2.0[..1]),
        row(p, "powf -0 gives one", &[1.0, 0.0], &dual(5.0, 1.0).powf(-0.0).parts()),
        row(p, "sph_j2 at 2^-52", &[-1.0], &[dual(edge, 1.0).sph_j2().re]),
    ]
}
