//! The original Rust with the oracle's requests, as the programs here use them.
#[path = "../../../oracle/src/counting.rs"]
pub mod counting;
#[path = "../../../oracle/src/functions.rs"]
pub mod functions;
#[path = "../../../oracle/src/matrices.rs"]
pub mod matrices;
#[path = "../../../oracle/src/matrix_requests.rs"]
pub mod matrix_requests;
#[path = "../../../oracle/src/original.rs"]
pub mod original;
#[path = "../../../oracle/src/pool.rs"]
pub mod pool;
#[path = "../../../oracle/src/random.rs"]
pub mod random;
#[path = "../../../oracle/src/record.rs"]
pub mod record;
#[path = "../../../oracle/src/requests.rs"]
pub mod requests;
#[path = "../../../oracle/src/supplied.rs"]
pub mod supplied;
#[path = "../../../oracle/src/words.rs"]
pub mod words;

// `linalg.rs` names them at the root.
use original::{DualNum, DualNumFloat};
