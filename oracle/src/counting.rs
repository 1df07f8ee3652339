//! A counting copy: `LU::new` and `jacobi_eigenvalue` of the original, line for line, with what
//! the original does not report. Its results are compared with the original's in every run.
use crate::original::{DualNum, DualNumFloat};
use nalgebra::{Dyn, OMatrix, OVector, U1};
use num_traits::{Float, FromPrimitive, One, Zero};

type Square<T> = OMatrix<T, Dyn, Dyn>;
type Column<T> = OVector<T, Dyn>;

pub struct Factored<T> {
    pub a: Square<T>,
    pub p: Column<usize>,
    pub p_count: usize,
}

/// `LU::new`; where it fails, the column at which no entry exceeds zero.
pub fn lu<T: DualNum + Copy>(mut a: Square<T>) -> Result<Factored<T>, usize> {
    let (n, _) = a.shape_generic();
    let mut p = OVector::from_iterator_generic(n, U1, 0..n.0);
    let n = n.0;
    let mut p_count = 0;

    for i in 0..n {
        let mut max_a = T::Primitive::zero();
        let mut imax = i;

        for k in i..n {
            let abs_a = a[(k, i)].abs();
            if abs_a.re() > max_a {
                max_a = abs_a.re();
                imax = k;
            }
        }

        if max_a.is_zero() {
            return Err(i);
        }

        if imax != i {
            p.swap_rows(i, imax);
            a.swap_rows(i, imax);

            p_count += 1;
        }

        for j in i + 1..n {
            a[(j, i)] = a[(j, i)] / a[(i, i)];

            for k in i + 1..n {
                a[(j, k)] = a[(j, k)] - a[(j, i)] * a[(i, k)];
            }
        }
    }
    Ok(Factored { a, p, p_count })
}

pub struct Eigen<T> {
    pub values: Column<T>,
    pub vectors: Square<T>,
    /// Sweeps that did not stop at a zero threshold.
    pub sweeps: usize,
    pub rotations: usize,
    /// The run stopped at a zero threshold.
    pub settled: bool,
}

/// `jacobi_eigenvalue`.
pub fn jacobi<T: DualNum + Copy>(mut a: Square<T>, max_iter: usize) -> Eigen<T> {
    let (r, c) = a.shape_generic();
    let n = r.0;
    let (mut sweeps, mut rotations, mut settled) = (0, 0, false);

    let mut v = OMatrix::identity_generic(r, c);
    let mut d = a.diagonal();

    let mut bw = d.clone();
    let mut zw = OVector::zeros_generic(r, U1);

    for it_num in 0..max_iter {
        let thresh = threshold(&a, n);
        if thresh.is_zero() {
            settled = true;
            break;
        }
        sweeps += 1;

        for p in 0..n {
            for q in p + 1..n {
                let gapq = a[(p, q)].abs() * T::Primitive::TEN;
                let termp = gapq + d[p].abs();
                let termq = gapq + d[q].abs();

                if 4 < it_num && termp == d[p].abs() && termq == d[q].abs() {
                    a[(p, q)] = T::zero();
                } else if thresh <= a[(p, q)].re().abs() {
                    rotations += 1;
                    let t = tangent(d[q] - d[p], a[(p, q)], gapq);
                    let c = (t * t + T::Primitive::one()).sqrt().recip();
                    let s = t * c;
                    let tau = s / (c + T::Primitive::one());
                    let h = t * a[(p, q)];

                    zw[p] -= h;
                    zw[q] += h;
                    d[p] -= h;
                    d[q] += h;

                    a[(p, q)] = T::zero();
                    rotate(&mut a, &mut v, (p, q), (s, tau));
                }
            }
        }

        bw += &zw;
        d = bw.clone();
        zw.fill(T::zero());
    }

    sort(&mut d, &mut v);
    Eigen { values: d, vectors: v, sweeps, rotations, settled }
}

fn threshold<T: DualNum + Copy>(a: &Square<T>, n: usize) -> T::Primitive {
    let mut thresh = T::Primitive::zero();
    for j in 0..n {
        for i in 0..j {
            thresh += Float::powi(a[(i, j)].re(), 2);
        }
    }
    Float::sqrt(thresh) / T::Primitive::from_usize(n).unwrap()
}

fn tangent<T: DualNum + Copy>(h: T, entry: T, gapq: T) -> T {
    let term = h.abs() + gapq;
    if term == h.abs() {
        entry / h
    } else {
        let theta = h * T::Primitive::HALF / entry;
        let mut t = (theta.abs() + (theta * theta + T::Primitive::one()).sqrt()).recip();
        if theta.is_negative() {
            t = -t;
        }
        t
    }
}

/// The four loops of one rotation: a pair of entries each time.
fn rotate<T: DualNum + Copy>(
    a: &mut Square<T>,
    v: &mut Square<T>,
    (p, q): (usize, usize),
    (s, tau): (T, T),
) {
    let n = a.shape_generic().0.0;
    let turn = |m: &mut Square<T>, one: (usize, usize), other: (usize, usize)| {
        let g = m[one];
        let h = m[other];
        m[one] = g - s * (h + g * tau);
        m[other] = h + s * (g - h * tau);
    };
    (0..p).for_each(|j| turn(a, (j, p), (j, q)));
    (p + 1..q).for_each(|j| turn(a, (p, j), (j, q)));
    (q + 1..n).for_each(|j| turn(a, (p, j), (q, j)));
    (0..n).for_each(|j| turn(v, (j, p), (j, q)));
}

fn sort<T: DualNum + Copy>(d: &mut Column<T>, v: &mut Square<T>) {
    let n = d.len();
    for k in 0..n - 1 {
        let mut m = k;

        for l in k + 1..n {
            if d[l].re() < d[m].re() {
                m = l;
            }
        }

        if m != k {
            d.swap_rows(m, k);

            for l in 0..n {
                v.swap((l, m), (l, k));
            }
        }
    }
}
