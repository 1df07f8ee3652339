//! The modules of `datatypes` that stand in src, and `real`, which `lib.rs` names.
pub mod dual;
pub mod dual2;
pub mod dual3;
pub mod hyperdual;
pub mod hyperhyperdual;
pub mod real;
