//! What running showed where the Rust, document 01 and public documents differ or are silent:
//! docs/DIFFERENCES.md, each line of it run.
use super::{INF, NAN, Row, cubic, dual, flat, mixed, row, said};
use crate::matrices::{Entry, jacobi, lu};
use crate::original::DualNum;
use crate::record::Record;
use crate::words::float;
use num_traits::Signed;

const EPSILON: f64 = f64::EPSILON;

pub(super) fn rows() -> Vec<Row> {
    [signs(), functions(), domains(), series(), matrices()].concat()
}

/// The sign of a NaN, and of zeros.
fn signs() -> Vec<Row> {
    let negative_nan = f64::from_bits(0xfff8000000000000);
    let computed = dual(INF, 1.0) - dual(INF, 2.0);
    // The NaN's sign is set on x86-64 and not on Arm.
    let computed_slope = if cfg!(target_arch = "x86_64") { 1.0 } else { -1.0 };
    vec![
        row(
            "1",
            "abs of (7ff8.., 1)",
            &[NAN, 1.0],
            &dual(float(0x7ff8000000000000), 1.0).abs().parts(),
        ),
        row("1", "abs of (fff8.., 1)", &[NAN, -1.0], &dual(negative_nan, 1.0).abs().parts()),
        row(
            "1",
            "abs of (inf, 1) - (inf, 2), computed at run time",
            &[NAN, computed_slope],
            &computed.abs().parts(),
        ),
        row(
            "5",
            "signum of (0, 1) and of (-0, 1)",
            &[1.0, 0.0, 0.0, 0.0],
            &flat(&[dual(0.0, 1.0).signum(), dual(-0.0, 1.0).signum()]),
        ),
        row("5", "f64's signum of -0", &[-1.0], &[Signed::signum(&-0.0f64)]),
        row(
            "6",
            "abs_sub of (NaN, 1) and (1, 1); f64's",
            &[0.0, 0.0, NAN],
            &[dual(NAN, 1.0).abs_sub(&dual(1.0, 1.0)).parts(), vec![Signed::abs_sub(&NAN, &1.0)]]
                .concat(),
        ),
    ]
}

/// Functions that are not what their name says, near the ends.
fn functions() -> Vec<Row> {
    let above = 1.0 + EPSILON;
    let below = -1.0 - 2.0 * EPSILON;
    let last = float(0x408633ce8fb9f87d);
    let tanh = |re: f64| dual(re, 1.0).tanh().parts();
    vec![
        row(
            "4",
            "mul_add is not fused: the record's, f64's",
            &[0.0, 2f64.powi(-104)],
            &[
                dual(above, 0.0).mul_add(dual(above, 0.0), dual(below, 0.0)).re,
                above.mul_add(above, below),
            ],
        ),
        row("11", "tanh at 4076395a2079b70d", &[1.0, NAN], &tanh(float(0x4076395a2079b70d))),
        said(
            "11",
            "tanh's eps just below that is a NaN",
            false,
            tanh(float(0x4076395a2079b70c))[1].is_nan(),
        ),
        said(
            "11",
            "tanh's re at 408633ce8fb9f87d and next: a NaN",
            [false, true],
            [last, float(last.to_bits() + 1)].map(|re| tanh(re)[0].is_nan()),
        ),
        row(
            "12",
            "powi -1 of (2^256, 1)",
            &[0.0, -0.0],
            &dual(2f64.powi(256), 1.0).powi(-1).parts(),
        ),
        row(
            "12",
            "powi -1 of (0, 1); recip",
            &[NAN, NAN, INF, -INF],
            &flat(&[dual(0.0, 1.0).powi(-1), dual(0.0, 1.0).recip()]),
        ),
        row(
            "12",
            "powi -1 and recip of (5, 1): eps",
            &[float(0xbfa47ae147ae147b), float(0xbfa47ae147ae147c)],
            &[dual(5.0, 1.0).powi(-1).eps, dual(5.0, 1.0).recip().eps],
        ),
        row("12", "powf 1/2 of (0, 1)", &[NAN, NAN], &dual(0.0, 1.0).powf(0.5).parts()),
        row(
            "8",
            "powd: (2, 0) to the (3, 0)",
            &[float(0x401ffffffffffffe), 0.0],
            &dual(2.0, 0.0).powd(dual(3.0, 0.0)).parts(),
        ),
        said(
            "2",
            "first exponents whose product leaves i32",
            [1292, -1290],
            [overflow(1), overflow(-1)],
        ),
        row(
            "15",
            "atan2 of (1, 0) and (0, 1)",
            &[1f64.atan2(0.0), NAN],
            &dual(1.0, 0.0).atan2(dual(0.0, 1.0)).parts(),
        ),
    ]
}

fn overflow(sign: i32) -> i32 {
    let leaves = |exp: &i32| {
        exp.checked_mul(exp - 1).and_then(|square| square.checked_mul(exp - 2)).is_none()
    };
    (1..5000).map(|exp| sign * exp).find(leaves).expect("there is one")
}

/// At the ends of domains, and beyond.
fn domains() -> Vec<Row> {
    vec![
        row("13", "sqrt of (inf, 1)", &[INF, NAN], &dual(INF, 1.0).sqrt().parts()),
        row("13", "cbrt of (0, 1)", &[0.0, NAN], &dual(0.0, 1.0).cbrt().parts()),
        row("13", "ln of (0, 0)", &[-INF, NAN], &dual(0.0, 0.0).ln().parts()),
        row("13", "asin of (1, 0): eps", &[NAN], &[dual(1.0, 0.0).asin().eps]),
        row("14", "ln of (-2, 1)", &[NAN, -0.5], &dual(-2.0, 1.0).ln().parts()),
        row(
            "14",
            "acosh of (-2, 1)",
            &[NAN, float(0x3fe279a74590331c)],
            &dual(-2.0, 1.0).acosh().parts(),
        ),
        row(
            "14",
            "atanh of (2, 1)",
            &[NAN, float(0xbfd5555555555555)],
            &dual(2.0, 1.0).atanh().parts(),
        ),
    ]
}

/// The closed forms of sph_j near 2^-52.
fn series() -> Vec<Row> {
    let x = dual(EPSILON, 1.0);
    let all = [x.sph_j0(), x.sph_j1(), x.sph_j2()];
    let (second, third) = (2f64.powi(53), -5.0 * 2f64.powi(105));
    vec![
        row(
            "16",
            "sph_j0, sph_j1, sph_j2 of (2^-52, 1)",
            &[1.0, 0.0, 0.0, 0.0, -1.0, 0.0],
            &flat(&all),
        ),
        row(
            "16",
            "sph_j1 of Dual3 (2^-52, 1, 0, 0)",
            &[0.0, 0.0, second, third],
            &cubic(EPSILON).sph_j1().parts(),
        ),
        row(
            "16",
            "sph_j1 of HyperHyperDual (2^-52; 1, 1, 1; 0, 0, 0; 0)",
            &[0.0, 0.0, 0.0, 0.0, second, second, second, third],
            &mixed(EPSILON).sph_j1().parts(),
        ),
        row(
            "16",
            "sph_j2 of (2^-26, 1)",
            &[0.5, float(0xc198000000000000)],
            &dual(2f64.powi(-26), 1.0).sph_j2().parts(),
        ),
    ]
}

fn matrices() -> Vec<Row> {
    let slope_only = |last: f64| [dual(1.0, 0.0), dual(0.0, 1.0), dual(0.0, 0.0), dual(last, 0.0)];
    let values = |m: &[Entry]| flat(&jacobi(2, m, 200).values);
    let vectors = |m: &[Entry]| flat(&jacobi(2, m, 200).vectors);
    let huge = 2f64.powi(512);
    let overflowing = [dual(1.0, 0.0), dual(huge, 0.0), dual(huge, 0.0), dual(2.0, 0.0)];
    let infinite = [dual(INF, 0.0), dual(1.0, 0.0), dual(INF, 0.0), dual(2.0, 0.0)];
    vec![
        row(
            "18",
            "[[1,(0,1)],[.,2]]: the vectors' slopes are lost",
            &[1.0, 0.0, 0.0, 0.0, 0.0, 0.0, 1.0, 0.0],
            &vectors(&slope_only(2.0)),
        ),
        row(
            "18",
            "[[1,(0,1)],[.,1]]: the values' slopes are lost",
            &[1.0, 0.0, 1.0, 0.0],
            &values(&slope_only(1.0)),
        ),
        row(
            "19",
            "[[1,2^512],[.,2]]: eigenvalues after 200 sweeps",
            &[1.0, 0.0, 2.0, 0.0],
            &values(&overflowing),
        ),
        said("19", "its sweeps and rotations at limit 200", (200, 0), {
            let eigen = jacobi(2, &overflowing, 200);
            (eigen.sweeps, eigen.rotations)
        }),
        said("20", "[[inf,1],[inf,2]] singular at", Some(1), lu(2, &infinite).err()),
        said("20", "[[NaN]] singular at", Some(0), lu(1, &[dual(NAN, 0.0)]).err()),
        row(
            "10",
            "the empty sum of Dual; of f64",
            &[0.0, 0.0, -0.0],
            &[
                <[Entry; 0]>::into_iter([]).sum::<Entry>().parts(),
                vec![<[f64; 0]>::into_iter([]).sum()],
            ]
            .concat(),
        ),
    ]
}
