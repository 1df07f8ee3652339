//! The original Rust: num-dual's records and functions, and its `linalg.rs` over the stand-in
//! for nalgebra. `run` copies the sources; `linalg.rs` is followed by `linalg_parts.rs`.
pub use num_dual::{
    Dual, Dual2, Dual3, DualNum, DualNumFloat, DualStruct, HyperDual, HyperHyperDual, Mappable,
};

#[path = "../original/linalg_with_parts.rs"]
pub mod linalg;
