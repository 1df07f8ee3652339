//! Document 01's values P1 to P12, and the two that follow them.
use evindrast::{
    exports, jacobi_eigenvalue, supplied, Dual3_64, Dual64, DualNum, Function, Matrix, Refusal, LU,
};

fn x(re: f64) -> Dual64 {
    Dual64::from_re(re)
}

fn parts(records: &[Dual64]) -> Vec<(f64, f64)> {
    records.iter().map(|x| (x.re, x.eps)).collect()
}

fn reals(records: &[Dual64]) -> Vec<f64> {
    records.iter().map(|x| x.re).collect()
}

#[test]
fn p1_the_listing() {
    let a = Matrix::from_rows([[Dual64::new(0.0, 1.0), x(2.0)], [x(1.0), x(0.0)]]);
    let lu = LU::new(&a).unwrap();
    assert_eq!((lu.order(), lu.swaps()), (&[1, 0][..], 1));
    let factors = [(1.0, 0.0), (0.0, 0.0), (0.0, 1.0), (2.0, 0.0)];
    assert_eq!(parts(lu.factors().entries()), factors);
}

#[test]
fn p2_a_quotient_below_one() {
    assert_eq!((x(49.0) / x(49.0)).re.to_bits(), 0x3fefffffffffffff);
}

#[test]
fn p3_equal_rows_that_are_accepted() {
    let lu = LU::new(&Matrix::from_fn(2, |_, _| x(49.0))).unwrap();
    assert_eq!((lu.order(), lu.swaps()), (&[0, 1][..], 0));
    assert_eq!(lu.factors()[(1, 1)].re, 2f64.powi(-47));
}

#[test]
fn p4_equal_rows_that_are_refused() {
    let a = Matrix::from_rows([[x(1.0), x(2.0)], [x(1.0), x(2.0)]]);
    let refusal = LU::new(&a).unwrap_err();
    assert_eq!((refusal, refusal.number()), (Refusal::Singular { column: 1 }, 6));
}

#[test]
fn p5_a_slope_is_no_pivot() {
    let a = Matrix::from_rows([[Dual64::new(0.0, 1.0)]]);
    assert_eq!(LU::new(&a).unwrap_err(), Refusal::Singular { column: 0 });
}

#[test]
fn p6_nothing_at_all() {
    let lu = LU::<Dual64>::new(&Matrix::zeros(0)).unwrap();
    assert_eq!(lu.swaps(), 0);
    assert_eq!(parts(&[lu.determinant()]), [(1.0, 0.0)]);
    let refusal = jacobi_eigenvalue(&Matrix::zeros(0), 50).unwrap_err();
    assert_eq!((refusal, refusal.number()), (Refusal::Empty, 3));
}

#[test]
fn p7_thirty_two_rows_and_one_more() {
    let identity = |n| Matrix::try_from_fn(n, |r, c| if r == c { x(1.0) } else { x(0.0) });
    assert_eq!(parts(&[LU::new(&identity(32).unwrap()).unwrap().determinant()]), [(1.0, 0.0)]);
    // the crate refuses such a matrix when it is made, the library when it is lent
    let refusal = identity(33).and_then(|a| LU::new(&a)).unwrap_err();
    assert_eq!((refusal, refusal.number()), (Refusal::TooLarge, 1));
    let refusal = identity(33).and_then(|a| jacobi_eigenvalue(&a, 50)).unwrap_err();
    assert_eq!(refusal, Refusal::TooLarge);
    let (a, mut out, mut values) = ([1.0; 2178], [0.0; 2178], [0.0; 66]);
    let (mut order, mut swaps_or_column, mut sweeps) = ([0; 33], 0, 0);
    assert_eq!(exports::lu(33, &a, &mut out, &mut order, &mut swaps_or_column), 1);
    assert_eq!(exports::jacobi_eigenvalue(33, &a, 50, &mut values, &mut out, &mut sweeps), 1);
}

#[test]
fn p8_powers() {
    assert_eq!(parts(&[Dual64::new(5.0, 1.0).powi(2)]), [(25.0, 10.0)]);
    let y = Dual3_64::new(5.0, 1.0, 0.0, 0.0);
    for cube in [y.powi(3), supplied::record(Function::Powi, &[y], 3, &[1.0]).unwrap()] {
        assert_eq!((cube.re, cube.v1, cube.v2, cube.v3), (125.0, 75.0, 30.0, 6.0));
    }
}

#[test]
fn p9_exponents() {
    assert!(x(1.0).try_powi(1024).is_ok() && x(1.0).try_powi(-1024).is_ok());
    for exponent in [1025, -1025, i32::MAX, i32::MIN] {
        let refusal = x(1.0).try_powi(exponent).unwrap_err();
        assert_eq!((refusal, refusal.number()), (Refusal::ExponentTooLarge, 5));
    }
}

#[test]
#[should_panic(expected = "refused 5: powi's exponent is outside -1,024..1,024")]
fn p9_powi_panics_with_the_refusal() {
    x(1.0).powi(1025);
}

#[test]
fn p10_roots() {
    assert_eq!(exports::sqrt(f64::from_bits(1)), 2f64.powi(-537));
    assert_eq!(exports::sqrt(-0.0).to_bits(), (-0.0f64).to_bits());
    assert_eq!(exports::sqrt_word((-1f64).to_bits()), 0x7ff8000000000000);
}

#[test]
fn p11_a_root_without_a_slope() {
    let root = Dual64::new(0.0, 1.0).sqrt();
    assert_eq!((root.re, root.eps.to_bits()), (0.0, 0x7ff8000000000000));
}

#[test]
fn p12_a_diagonal() {
    let a = Matrix::from_rows([[x(3.0), x(0.0)], [x(0.0), x(1.0)]]);
    let eigen = jacobi_eigenvalue(&a, 50).unwrap();
    assert_eq!((reals(&eigen.values), eigen.sweeps), (vec![1.0, 3.0], 0));
    assert_eq!(reals(eigen.vectors.entries()), [0.0, 1.0, 1.0, 0.0]);
}

#[test]
fn below_the_diagonal_nothing_is_read() {
    let a = Matrix::from_rows([[x(2.0), x(1.0)], [x(99.0), x(2.0)]]);
    let eigen = jacobi_eigenvalue(&a, 50).unwrap();
    assert_eq!((reals(&eigen.values), eigen.sweeps), (vec![1.0, 3.0], 1));
}

#[test]
fn a_square_that_vanishes() {
    let small = x(2f64.powi(-600));
    let a = Matrix::from_rows([[x(1.0), small], [small, x(2.0)]]);
    let eigen = jacobi_eigenvalue(&a, 50).unwrap();
    assert_eq!((reals(&eigen.values), eigen.sweeps), (vec![1.0, 2.0], 0));
}
