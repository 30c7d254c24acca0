//! Lists of commands for both drivers, the same for the same seed.
mod ack;
mod boundary;
mod by_chance;
mod directive;
mod eof;
mod exhaustive;
mod limits;
mod metadata;
mod reading;
mod writing;

pub use exhaustive::exhaustive;

use crate::Record;
use crate::make::{Random, WIDTHS};
use std::io::{Result, Write};

/// The oracle's own list, with the commands of the later requests.
pub fn whole(seed: u64, out: &mut impl Write) -> Result<()> {
    let random = &mut Random(seed);
    short(random, out, &["read", "eof", "ack", "metadata"])?;
    reading::damaged_naks(random, out)?;
    with_records(random, out)?;
    by_chance::reads(random, out)?;
    by_chance::writes(random, out)
}

/// What port and Rust are both asked.
pub fn base(seed: u64, out: &mut impl Write) -> Result<()> {
    let random = &mut Random(seed);
    short(random, out, &["read"])?;
    for _ in 0..3 {
        reading::damaged_naks(random, out)?;
    }
    reading::any_bytes(random, out)?;
    reading::beginnings(random, out)?;
    with_records(random, out)?;
    boundary::reads(random, out)?;
    boundary::headers(random, out)?;
    boundary::naks(random, out)?;
    boundary::sizes(random, out)?;
    boundary::differences(random, out)?;
    limits::widths(random, out)?;
    limits::pairs(random, out)?;
    limits::odd(random, out)
}

/// EOFs and ACKs (document 02, C-01), which port and Rust are both asked.
pub fn eof_and_ack(seed: u64, out: &mut impl Write) -> Result<()> {
    let random = &mut Random(seed);
    reading::directives(random, out, &["eof", "ack"])?;
    eof::reads(random, out)?;
    eof::writes(random, out)?;
    ack::reads(random, out)?;
    ack::writes(random, out)
}

/// Metadata PDUs (document 02, C-11), which port and Rust are both asked.
pub fn metadata(seed: u64, out: &mut impl Write) -> Result<()> {
    let random = &mut Random(seed);
    reading::directives(random, out, &["metadata"])?;
    metadata::reads(random, out)?;
    metadata::writes(random, out)
}

/// Checksums, and what a reader sees first; `readers` are the commands that are asked each directive.
fn short(random: &mut Random, out: &mut impl Write, readers: &[&str]) -> Result<()> {
    reading::checksums(random, out)?;
    reading::first_and_fourth_bytes(random, out)?;
    reading::directives(random, out, readers)?;
    reading::short_data(random, out)
}

/// The commands that take a record.
fn with_records(random: &mut Random, out: &mut impl Write) -> Result<()> {
    writing::writes(random, out)?;
    writing::records(random, out)?;
    writing::comparisons(random, out)
}

/// A record for every pair of widths.
fn at_every_width(random: &mut Random) -> Vec<Record> {
    let widths = WIDTHS.iter().flat_map(|e| WIDTHS.map(|s| (*e, s)));
    let record = |(entity, sequence)| Record {
        source: random.field(entity),
        sequence: random.field(sequence),
        destination: random.field(entity),
        ..random.record()
    };
    widths.map(record).collect()
}

/// The record with the seven flags that the low bits say.
fn with_flags(record: Record, flags: u8) -> Record {
    let bit = |k: u8| flags >> k & 1;
    Record {
        pdu_type: bit(0),
        direction: bit(1),
        mode: bit(2),
        segmentation_control: bit(3),
        segment_metadata: bit(4),
        crc: bit(5),
        large: bit(6),
        ..record
    }
}

/// A record for every pair of widths and every flag.
fn at_every_shape(random: &mut Random) -> Vec<Record> {
    let with = |flags| {
        at_every_width(random)
            .into_iter()
            .map(move |r| with_flags(r, flags))
    };
    (0..128).flat_map(with).collect()
}
