//! A codec for the CFDP header, NAK, EOF, ACK and Metadata PDUs (CCSDS 727.0-B-5) that is proved: safe names over
//! `libcfdp.a`, whose functions give one proved answer to every input. Nothing is decided here. Numbers are
//! carried to the places that `include/cfdp.h` names and from them, and all that is `unsafe` is in one file.
//!
//! ```
//! use cfdp::{Nak, Refusal};
//!
//! let bytes = [
//!     0x28, 0x00, 0x11, 0x00, 0x01, 0x02, 0x03, 0x08, 0x00, 0x00, 0x00, 0x00, 0x00, 0x00, 0x03, 0xE8,
//!     0x00, 0x00, 0x00, 0x64, 0x00, 0x00, 0x00, 0xC8,
//! ];
//! let nak = Nak::read(&bytes)?;
//! for pair in nak.pairs() {
//!     println!("{} to {}", pair.start, pair.end);
//! }
//! # Ok::<(), Refusal>(())
//! ```
#![no_std]
#![deny(unsafe_code)]
#![warn(missing_docs)]

mod ack;
mod differ;
mod eof;
mod ffi;
mod header;
mod metadata;
mod nak;
mod owed;
mod plan;
mod receiver;
mod refusal;
mod stream;

pub use ack::Ack;
pub use differ::{differ, Difference, Only};
pub use eof::{Eof, FaultLocation};
pub use ffi::checksum;
pub use header::{EntityId, Header, TransactionSeqNum, Written};
pub use metadata::{Metadata, MetadataOption, Options};
pub use nak::{Nak, Pair, Pairs, Requests, Reserved};
pub use owed::Owed;
pub use plan::{Missing, Planned, PlannedNak};
pub use receiver::Receiver;
pub use refusal::Refusal;
pub use stream::{next_pdu, Pdus};
