//! Two NAKs of one transaction compared: what only one of them asks for.
use crate::ffi;
use crate::Refusal;

/// A range that only one of two NAKs asks for: first byte, first byte behind, and whose it is, 1 or 2.
#[derive(Clone, Copy, Debug, Default, PartialEq, Eq, Hash)]
#[repr(C)]
#[allow(missing_docs)]
pub struct Only {
    pub start: u64,
    pub end: u64,
    pub side: u64,
}

/// What a comparison found beside the ranges.
#[derive(Clone, Copy, Debug, PartialEq, Eq, Hash)]
pub struct Difference {
    /// Whether the first and the second ask for metadata.
    pub metadata: [bool; 2],
    /// How many ranges were stored.
    pub ranges: usize,
}

/// Stores the longest ranges that only one of the NAKs asks for, in rising order. As many as both have requests are
/// room enough.
pub fn differ(first: &[u8], second: &[u8], ranges: &mut [Only]) -> Result<Difference, Refusal> {
    let answer = ffi::differ(first, second, ranges)?;
    Ok(Difference {
        metadata: [
            answer[ffi::DIFFER_METADATA_1] != 0,
            answer[ffi::DIFFER_METADATA_2] != 0,
        ],
        ranges: answer[ffi::DIFFER_RANGES] as usize,
    })
}
