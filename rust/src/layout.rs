//! Records in memory: their floats, one after the other.
use crate::DualNum;
use std::slice::{from_raw_parts, from_raw_parts_mut};

/// What only the records of this crate are.
///
/// # Safety
/// The type is [`DualNum::PARTS`] f64 in memory, one after the other, and nothing else.
pub unsafe trait Floats: Copy + 'static {}

/// The floats of records.
#[inline]
pub fn floats<T: DualNum>(records: &[T]) -> &[f64] {
    // SAFETY: `Floats` promises that a `T` is `PARTS` f64.
    unsafe { from_raw_parts(records.as_ptr().cast(), records.len() * T::PARTS) }
}

/// The floats of records, to be written.
#[inline]
pub fn floats_mut<T: DualNum>(records: &mut [T]) -> &mut [f64] {
    // SAFETY: as above, and any `PARTS` f64 are a `T`.
    unsafe { from_raw_parts_mut(records.as_mut_ptr().cast(), records.len() * T::PARTS) }
}
