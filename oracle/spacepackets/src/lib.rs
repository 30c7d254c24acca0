//! Changed for the oracle: this is not the crate's lib.rs whole. That file needs crates that are
//! not at hand and four modules that are not given, and is used here only for what the compared
//! modules need of it. Every line below stands word for word in the lib.rs of spacepackets 0.19.0:
//! its lines 62 to 69, 76 and 77, 81, 82 and 87 (the modules), and 115 to 136 (ByteConversionError).
#![no_std]
#![forbid(unsafe_code)]
#![cfg_attr(docsrs, feature(doc_cfg))]
#![warn(missing_docs)]
#[cfg(feature = "alloc")]
extern crate alloc;
#[cfg(any(feature = "std", test))]
extern crate std;

#[cfg(feature = "serde")]
use serde::{Deserialize, Serialize};

pub mod cfdp;
pub mod crc;
pub mod util;

/// Generic error type when converting to and from raw byte slices.
#[derive(Debug, Copy, Clone, PartialEq, Eq, thiserror::Error)]
#[cfg_attr(feature = "serde", derive(Serialize, Deserialize))]
#[cfg_attr(feature = "defmt", derive(defmt::Format))]
pub enum ByteConversionError {
    /// The passed slice is too small. Returns the passed slice length and expected minimum size
    #[error("target slice with size {found} is too small, expected size of at least {expected}")]
    ToSliceTooSmall {
        /// Found slice size.
        found: usize,
        /// Expected slice size.
        expected: usize,
    },
    /// The provider buffer is too small. Returns the passed slice length and expected minimum size
    #[error("source slice with size {found} too small, expected at least {expected} bytes")]
    FromSliceTooSmall {
        /// Found slice size.
        found: usize,
        /// Expected slice size.
        expected: usize,
    },
}
