//! The port's library in the words of the line protocol: `ffi` calls it, `answer` takes its answers
//! apart, `base` has one function for each command of the base, `eof_ack` and `metadata` one for each
//! of the others that the Rust has too; `receive`, `differ`, `owed` and `plans` are the port's alone.
pub mod answer;
pub mod base;
pub mod differ;
pub mod eof_ack;
pub mod ffi;
pub mod metadata;
pub mod owed;
pub mod plans;
pub mod receive;

pub use tools::places;
