//! The check of the floating-point environment, in the environments that the machine has, and what
//! it warns of: results that are wrong in the others.
#![cfg(any(target_arch = "x86_64", target_arch = "aarch64"))]
mod c;

use evindrast::{environment, exports, Environment, Kind};

#[test]
fn a_program_starts_in_the_right_one() {
    assert_eq!(environment(), Ok(()));
}

#[test]
fn every_other_one_is_told() {
    for other in machine::OTHERS {
        let told = under(other, environment).expect_err("another environment");
        let Environment { rounding, subnormals, .. } = told;
        assert_eq!(rounding, other.rounding, "{other:x?}");
        assert_eq!(subnormals, other.operands || other.results, "{other:x?}");
        let text = told.to_string();
        assert_eq!(text.contains("results are not rounded to nearest"), rounding, "{text}");
        assert_eq!(text.contains("subnormal numbers count as zero"), subnormals, "{text}");
    }
    assert_eq!(environment(), Ok(()), "each is left again");
}

/// The root of 2^-1074 by its bits, and LU's answer to the 1 by 1 matrix (2^-1074, 1).
fn root_and_matrix() -> (u64, u32) {
    let (mut factors, mut order, mut swaps_or_column) = ([7.0; 2], [7], 7);
    let matrix = [f64::from_bits(1), 1.0];
    let number = exports::lu(1, &matrix, &mut factors, &mut order, &mut swaps_or_column);
    (exports::sqrt_word(1), number)
}

/// The product of 2^-600 and 2^-450, by its bits.
fn product() -> u64 {
    real_part(exports::mul, [(1023 - 600) << 52, (1023 - 450) << 52])
}

/// A third and a tenth, by their bits: to nearest the one is rounded down and the other up.
fn quotients() -> [u64; 2] {
    [3.0f64, 10.0].map(|divisor| real_part(exports::div, [1f64.to_bits(), divisor.to_bits()]))
}

fn real_part(operator: fn(u32, &[f64], &mut [f64]) -> u32, [x, y]: [u64; 2]) -> u64 {
    let mut out = [0.0; 2];
    let records = [x, 0, y, 0].map(f64::from_bits);
    assert_eq!(operator(Kind::Dual as u32, &records, &mut out), 0);
    out[0].to_bits()
}

/// The results that are promised, and wrong ones just where the check warns of them.
#[test]
fn it_warns_of_wrong_results() {
    let right = [0x3fd5555555555555, 0x3fb999999999999a];
    assert_eq!(root_and_matrix(), ((1023 - 537) << 52, 0));
    assert_eq!((product(), quotients()), (1 << 24, right));
    for other in machine::OTHERS {
        let (root, matrix) = under(other, root_and_matrix);
        assert_eq!((root == 1, matrix == 6), (other.operands, other.operands), "{other:x?}");
        assert_eq!(under(other, product) == 0, other.results, "{other:x?}");
        assert_eq!(under(other, quotients) != right, other.rounding, "{other:x?}");
    }
}

/// The same through the header, where `-ffast-math` has subnormal numbers counted as zero from the
/// start, and where it does not.
#[test]
fn the_header_tells_it_too() {
    let strict = [&c::FLAGS[..], &["-Werror"]].concat();
    let told = |name, flags: &[&str]| {
        let ran = c::run(name, include_str!("environment.c"), &[&strict, flags].concat());
        assert!(ran.good, "{}", ran.err);
        ran.out
    };
    let right = "1e60000000000000 0\n";
    let lines = |told: [u32; 5], beside| told.map(|told| format!("{told} {beside}")).concat();
    assert_eq!(told("environment", &[]), lines([0, 1, 1, 1, 0], right));
    assert_eq!(told("environment_debug", &["-O0"]), lines([0, 1, 1, 1, 0], right));
    let fast = told("environment_fast", &["-ffast-math"]);
    assert_eq!(fast, lines([2, 3, 3, 3, 2], "1 6\n"));
}

/// What is done in another environment. It does no arithmetic on floats but by the library.
fn under<T>(other: &Other, work: fn() -> T) -> T {
    let before = machine::control();
    machine::set_control(before | other.bits);
    let result = work();
    machine::set_control(before);
    result
}

/// An environment other than the one that the promises are for.
#[derive(Debug)]
struct Other {
    /// What is set in the control register.
    bits: u64,
    /// Another direction of rounding.
    rounding: bool,
    /// Subnormal operands count as zero.
    operands: bool,
    /// Subnormal results become zero.
    results: bool,
}

#[cfg(target_arch = "x86_64")]
mod machine {
    use super::Other;
    use std::arch::asm;

    const DOWN: u64 = 1 << 13;
    const UP: u64 = 2 << 13;
    const ZERO: u64 = 3 << 13;
    const FLUSH_TO_ZERO: u64 = 1 << 15;
    const DENORMALS_ARE_ZERO: u64 = 1 << 6;

    const fn other(bits: u64) -> Other {
        Other {
            bits,
            rounding: bits & ZERO != 0,
            operands: bits & DENORMALS_ARE_ZERO != 0,
            results: bits & FLUSH_TO_ZERO != 0,
        }
    }

    pub const OTHERS: &[Other] = &[
        other(DOWN),
        other(UP),
        other(ZERO),
        other(FLUSH_TO_ZERO),
        other(DENORMALS_ARE_ZERO),
        other(FLUSH_TO_ZERO | DENORMALS_ARE_ZERO),
        other(UP | FLUSH_TO_ZERO),
        other(DOWN | DENORMALS_ARE_ZERO),
        other(ZERO | FLUSH_TO_ZERO | DENORMALS_ARE_ZERO),
    ];

    pub fn control() -> u64 {
        let mut control = 0u32;
        unsafe { asm!("stmxcsr [{}]", in(reg) &mut control) };
        control.into()
    }

    pub fn set_control(control: u64) {
        let control = control as u32;
        unsafe { asm!("ldmxcsr [{}]", in(reg) &control) };
    }
}

#[cfg(target_arch = "aarch64")]
mod machine {
    use super::Other;
    use std::arch::asm;

    const UP: u64 = 1 << 22;
    const DOWN: u64 = 2 << 22;
    const ZERO: u64 = 3 << 22;
    const FLUSH_TO_ZERO: u64 = 1 << 24;

    const fn other(bits: u64) -> Other {
        let flush = bits & FLUSH_TO_ZERO != 0;
        Other { bits, rounding: bits & ZERO != 0, operands: flush, results: flush }
    }

    pub const OTHERS: &[Other] = &[
        other(UP),
        other(DOWN),
        other(ZERO),
        other(FLUSH_TO_ZERO),
        other(UP | FLUSH_TO_ZERO),
        other(DOWN | FLUSH_TO_ZERO),
        other(ZERO | FLUSH_TO_ZERO),
    ];

    pub fn control() -> u64 {
        let control;
        unsafe { asm!("mrs {}, fpcr", out(reg) control) };
        control
    }

    pub fn set_control(control: u64) {
        unsafe { asm!("msr fpcr, {}", in(reg) control) };
    }
}
