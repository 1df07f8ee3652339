//! LU and its answers against each other, and the refusals.
use evindrast::{exports, jacobi_eigenvalue, Dual64, DualNum, HyperDual64, Matrix, Refusal, LU};

fn matrix() -> Matrix<Dual64> {
    let x = Dual64::new;
    Matrix::from_rows([
        [x(2.0, 1.0), x(-1.0, 0.5), x(0.0, 0.0)],
        [x(4.0, 0.0), x(3.0, 2.0), x(1.0, -1.0)],
        [x(-8.0, 0.25), x(1.0, 0.0), x(5.0, 3.0)],
    ])
}

fn near(x: Dual64, re: f64, eps: f64) {
    assert!((x.re - re).abs() < 1e-12 && (x.eps - eps).abs() < 1e-12, "{x:?}, not {re} {eps}");
}

#[test]
fn a_solution_solves() {
    let a = matrix();
    let b = [Dual64::new(1.0, 2.0), Dual64::new(-3.0, 0.0), Dual64::new(0.5, 1.0)];
    let x = LU::new(&a).unwrap().solve(&b).unwrap();
    for (r, b) in b.iter().enumerate() {
        let back: Dual64 = a.row(r).iter().zip(&x).map(|(a, x)| a * x).sum();
        near(back, b.re, b.eps);
    }
}

#[test]
fn an_inverse_inverts() {
    let a = matrix();
    let inverse = LU::new(&a).unwrap().inverse();
    for r in 0..3 {
        for c in 0..3 {
            let one: Dual64 = (0..3).map(|k| a[(r, k)] * inverse[(k, c)]).sum();
            near(one, if r == c { 1.0 } else { 0.0 }, 0.0);
        }
    }
}

#[test]
fn a_determinant_is_the_expansion() {
    let a = matrix();
    let minor = |c: usize, d: usize| a[(1, c)] * a[(2, d)] - a[(1, d)] * a[(2, c)];
    let det = a[(0, 0)] * minor(1, 2) - a[(0, 1)] * minor(0, 2) + a[(0, 2)] * minor(0, 1);
    near(LU::new(&a).unwrap().determinant(), det.re, det.eps);
}

#[test]
fn parts_are_checked() {
    let lu = LU::new(&matrix()).unwrap();
    let from = |order: &[usize], swaps| {
        LU::from_parts(lu.factors().clone(), order.to_vec(), swaps).map_err(Refusal::number)
    };
    let again = from(lu.order(), lu.swaps()).unwrap();
    assert_eq!(again.determinant().eps.to_bits(), lu.determinant().eps.to_bits());
    assert_eq!(from(&[0, 1], 0).err(), Some(2));
    assert_eq!(from(&[0, 1, 1], 0).err(), Some(7));
    assert_eq!(from(&[0, 1, 3], 0).err(), Some(7));
    assert_eq!(from(&[0, 1, 2], 1).err(), Some(8));
    assert_eq!(from(&[0, 1, 2], 34).err(), Some(8));
    assert_eq!(from(&[0, 2, 1], 31).err(), None);
    let large = Matrix::<Dual64>::try_zeros(33)
        .and_then(|factors| LU::from_parts(factors, (0..33).collect(), 0));
    assert_eq!(large.unwrap_err(), Refusal::TooLarge);
}

#[test]
fn lengths_and_limits_are_checked() {
    let lu = LU::new(&matrix()).unwrap();
    assert_eq!(lu.solve(&[Dual64::ONE; 2]).unwrap_err(), Refusal::WrongLength);
    assert!(jacobi_eigenvalue(&matrix(), 1000).is_ok());
    assert_eq!(jacobi_eigenvalue(&matrix(), 1001).unwrap_err(), Refusal::LimitTooLarge);
}

#[test]
fn a_refused_call_writes_nothing_but_lus_six() {
    let mut factors = [7.0; 8];
    let (mut order, mut swaps_or_column) = ([9; 2], 5);
    assert_eq!(exports::lu(2, &[1.0; 6], &mut factors, &mut order, &mut swaps_or_column), 2);
    assert_eq!((factors, order, swaps_or_column), ([7.0; 8], [9; 2], 5));
    let singular = [1.0, 0.0, 2.0, 0.0, 1.0, 0.0, 2.0, 0.0];
    assert_eq!(exports::lu(2, &singular, &mut factors, &mut order, &mut swaps_or_column), 6);
    assert_eq!((factors, order, swaps_or_column), ([0.0; 8], [0; 2], 1));
}

#[test]
fn a_mixed_derivative_goes_through_a_solve() {
    // (x y) z = 1 at x = 2, y = 4: z is 1/8, its mixed derivative 1/(x y)^2 = 1/64
    let x = HyperDual64::from_re(2.0).derivative1();
    let y = HyperDual64::from_re(4.0).derivative2();
    let lu = LU::new(&Matrix::from_rows([[x * y]])).unwrap();
    let z = lu.solve(&[HyperDual64::ONE]).unwrap()[0];
    assert_eq!((z.re, z.eps1, z.eps2, z.eps1eps2), (0.125, -0.0625, -0.03125, 0.015625));
    assert_eq!(lu.inverse()[(0, 0)].parts(), z.parts());
    assert_eq!(lu.determinant().parts(), (x * y).parts());
    let singular = Matrix::from_fn(2, |_, c| if c == 0 { x } else { y });
    assert_eq!(LU::new(&singular).unwrap_err(), Refusal::Singular { column: 1 });
}
