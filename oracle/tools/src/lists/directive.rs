//! What the lists of EOFs, ACKs and Metadata PDUs share: records, PDUs that declare less than they hold,
//! damaged copies, beginnings, and rooms to write into.
use super::reading::damage;
use super::{at_every_width, limits, with_flags};
use crate::make::{Random, header_len, pdu};
use crate::show::hex;
use crate::{Field, Record};
use std::io::{Result, Write};

/// A record for every pair of widths and every flag but the PDU type, which is 1 in few of them.
pub fn at_every_shape(random: &mut Random) -> Vec<Record> {
    let mut records = Vec::new();
    for flags in 0..64u8 {
        let pdu_type = u8::from(random.below(32) == 0);
        let shaped = at_every_width(random).into_iter();
        records.extend(shaped.map(|r| with_flags(r, flags << 1 | pdu_type)));
    }
    records
}

/// The PDU that declares that much of the data, in a buffer one short, exact and with the other bytes
/// after it; a few with another directive, or with a bad checksum.
pub fn declared(
    random: &mut Random,
    out: &mut impl Write,
    command: &str,
    record: Record,
    data: &[u8],
    length: usize,
) -> Result<()> {
    let (inside, beyond) = data.split_at(length);
    let mut inside = inside.to_vec();
    if let Some(code) = inside.first_mut()
        && random.below(12) == 0
    {
        *code = random.one_of(&[0, 3, 4, 5, 6, 7, 8, 9, 10, 11, 12, 13, 255]);
    }
    let mut bytes = pdu(record, &inside);
    if random.below(16) == 0 {
        let last = bytes.len() - 1 - random.below(2) as usize;
        bytes[last] ^= 1 << random.below(8);
    }
    let whole = bytes.len();
    bytes.extend(beyond);
    bytes.extend(random.bytes(1));
    for length in [whole - 1, whole, bytes.len()] {
        writeln!(out, "{command} {}", hex(&bytes[..length]))?;
    }
    Ok(())
}

/// Lengths of data at which E lies at and beside 9, h and h + 1, and at those lengths and beside them.
pub fn lengths(record: &Record, also: &[usize]) -> Vec<usize> {
    let nine = 9usize.saturating_sub(header_len(record));
    let mut lengths: Vec<usize> = vec![nine.saturating_sub(1), nine, nine + 1, 0, 1, 2];
    lengths.extend(also.iter().flat_map(|length| length - 1..=length + 1));
    lengths.sort_unstable();
    lengths.dedup();
    lengths
}

/// Bytes cut, lengthened or changed, the checksum made good again or not.
pub fn damaged(
    random: &mut Random,
    out: &mut impl Write,
    command: &str,
    mut bytes: Vec<u8>,
) -> Result<()> {
    damage(random, &mut bytes);
    writeln!(out, "{command} {}", hex(&bytes))
}

/// Each beginning of a good PDU, all of it, and some bytes more.
pub fn beginnings(
    random: &mut Random,
    out: &mut impl Write,
    command: &str,
    mut bytes: Vec<u8>,
) -> Result<()> {
    bytes.extend(random.bytes(3));
    for length in 0..=bytes.len() {
        writeln!(out, "{command} {}", hex(&bytes[..length]))?;
    }
    Ok(())
}

/// A command that writes a PDU with that much data, into a buffer one short, exact and longer.
pub fn rooms(
    random: &mut Random,
    out: &mut impl Write,
    record: &Record,
    command: &str,
    data: usize,
) -> Result<()> {
    let whole = header_len(record) + data + 2 * usize::from(record.crc);
    let fill = random.number() as u8;
    for room in [whole - 1, whole, whole + 1 + random.below(5) as usize] {
        writeln!(out, "{command} {room}*{fill:02x}")?;
    }
    Ok(())
}

/// A record for every three widths, most of which are not allowed or not equal.
pub fn at_any_widths(random: &mut Random) -> Vec<Record> {
    let each = || limits::ANY_WIDTH.into_iter();
    let threes = each().flat_map(|a| each().flat_map(move |b| each().map(move |c| [a, b, c])));
    let record = |widths: [u64; 3]| {
        let [source, sequence, destination] = widths.map(|width| Field {
            width,
            value: random.below(256),
        });
        Record {
            source,
            sequence,
            destination,
            ..random.record()
        }
    };
    threes.map(record).collect()
}
