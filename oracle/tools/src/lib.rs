//! The line protocol of the differential runs, which the top of src/bin/oracle.rs sets out: lines
//! to commands, what a command gives to lines, and where document 01 compares port and Rust. It is
//! all plain data, so that the driver of either side can stand on it; only `rust` knows the Rust.
pub mod command;
pub mod domain;
pub mod judge;
pub mod lists;
pub mod make;
pub mod parse;
pub mod places;
pub mod refusal;
pub mod replay;
#[cfg(feature = "rust")]
pub mod rust;
pub mod serve;
pub mod show;
#[cfg(feature = "rust")]
pub mod streams;

pub use command::Command;

/// A number that takes a given count of bytes: an entity identifier or a sequence number.
#[derive(Clone, Copy, Debug, PartialEq, Eq)]
pub struct Field {
    pub width: u64,
    pub value: u64,
}

/// A header record. Each flag is 0 or 1, as its bit on the link.
#[derive(Clone, Copy, Debug, PartialEq, Eq)]
pub struct Record {
    pub pdu_type: u8,
    pub direction: u8,
    pub mode: u8,
    pub crc: u8,
    pub large: u8,
    pub segmentation_control: u8,
    pub segment_metadata: u8,
    pub data_length: u16,
    pub source: Field,
    pub sequence: Field,
    pub destination: Field,
}

/// Start and end of scope.
#[derive(Clone, Copy, Debug, PartialEq, Eq)]
pub struct Scope {
    pub start: u64,
    pub end: u64,
}

/// The numbers given to the writer, start and end by turns. Their count may be odd.
#[derive(Clone, Debug, PartialEq, Eq)]
pub enum List {
    None,
    Normal(Vec<u32>),
    Large(Vec<u64>),
}

impl List {
    /// How many whole pairs they are.
    pub fn pairs(&self) -> usize {
        match self {
            List::None => 0,
            List::Normal(numbers) => numbers.len() / 2,
            List::Large(numbers) => numbers.len() / 2,
        }
    }
}
