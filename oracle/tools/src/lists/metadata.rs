//! Metadata PDUs, read and written on both sides of each boundary that document 02's C-11 names.
use super::directive::{
    at_any_widths, at_every_shape, beginnings, damaged, declared, lengths, rooms,
};
use super::writing::any_record;
use crate::Record;
use crate::command::Metadata;
use crate::make::{Random, metadata_data, pdu, size_len};
use crate::show::hex;
use std::io::{Result, Write};

const DAMAGED: usize = 20_000;
const BEGUN: usize = 100;
const WRITTEN: usize = 5_000;

pub fn reads(random: &mut Random, out: &mut impl Write) -> Result<()> {
    types(random, out)?;
    names(random, out)?;
    options(random, out)?;
    for record in at_every_shape(random) {
        boundaries(random, out, record)?;
    }
    for _ in 0..DAMAGED {
        let bytes = any(random);
        damaged(random, out, "metadata", bytes)?;
    }
    for _ in 0..BEGUN {
        let bytes = any(random);
        beginnings(random, out, "metadata", bytes)?;
    }
    Ok(())
}

/// The bytes of a good one.
fn any(random: &mut Random) -> Vec<u8> {
    let record = random.record();
    let metadata = random.metadata(&record);
    pdu(record, &metadata_data(&record, &metadata))
}

/// Every byte of closure flag, spare bits and checksum type.
fn types(random: &mut Random, out: &mut impl Write) -> Result<()> {
    for (byte, flags) in (0..=u8::MAX).flat_map(|b| (0..4).map(move |f| (b, f))) {
        let (crc, large) = (flags & 1, flags >> 1);
        let record = Record {
            crc,
            large,
            ..random.record()
        };
        let mut data = metadata_data(&record, &random.metadata(&record));
        data[1] = byte;
        writeln!(out, "metadata {}", hex(&pdu(record, &data)))?;
    }
    Ok(())
}

/// Every length of each name, with E one before its end, at it and one after, and the cut bytes after the
/// PDU.
fn names(random: &mut Random, out: &mut impl Write) -> Result<()> {
    for (length, first) in (0..=255).flat_map(|n| [(n, true), (n, false)]) {
        let record = random.record();
        let name = random.bytes(length);
        let other = random.name(8);
        let [source_name, destination_name] = if first { [name, other] } else { [other, name] };
        let front = if first { 0 } else { 1 + source_name.len() };
        let metadata = Metadata {
            source_name,
            destination_name,
            ..random.metadata(&record)
        };
        let mut data = metadata_data(&record, &metadata);
        let end = 2 + size_len(&record) + front + 1 + length;
        data.extend(random.bytes(2));
        for end in [end - 1, end, end + 1] {
            declared(random, out, "metadata", record, &data, end)?;
        }
    }
    Ok(())
}

/// Every type and every length of an option, its value one short, exact and followed by a byte, which is an
/// option that is cut.
fn options(random: &mut Random, out: &mut impl Write) -> Result<()> {
    for byte in 0..=u8::MAX {
        for (option_type, length) in [(2, byte), (byte, random.one_of(&[0, 1, 2, 9]))] {
            let record = random.record();
            let before = if random.bit() == 1 {
                random.option(4)
            } else {
                Vec::new()
            };
            let value = random.bytes(length.into());
            let metadata = Metadata {
                option_area: [&before[..], &[option_type, length], &value].concat(),
                ..random.metadata(&record)
            };
            let mut data = metadata_data(&record, &metadata);
            let whole = data.len();
            data.extend(random.bytes(2));
            for end in [whole - 1, whole, whole + 1] {
                declared(random, out, "metadata", record, &data, end)?;
            }
        }
    }
    Ok(())
}

/// E at and beside 9, h + 1, the end of the file size, of both names and of each option's parts.
fn boundaries(random: &mut Random, out: &mut impl Write, record: Record) -> Result<()> {
    let [source_name, destination_name] = [(); 2].map(|()| random.name(5));
    let (one, two) = (random.option(3), random.option(3));
    let metadata = Metadata {
        source_name,
        destination_name,
        option_area: [&one[..], &two].concat(),
        ..random.metadata(&record)
    };
    let mut data = metadata_data(&record, &metadata);
    let size = 2 + size_len(&record);
    let first = size + 1 + metadata.source_name.len();
    let second = first + 1 + metadata.destination_name.len();
    let third = second + one.len();
    let whole = data.len();
    data.extend(random.bytes(3));
    for length in lengths(&record, &[size, first, second, third, whole]) {
        declared(random, out, "metadata", record, &data, length)?;
    }
    Ok(())
}

pub fn writes(random: &mut Random, out: &mut impl Write) -> Result<()> {
    for record in at_every_shape(random) {
        for _ in 0..2 {
            let metadata = random.metadata(&record);
            let data = metadata_data(&record, &metadata).len();
            let command = format!("wmetadata {record} {metadata}");
            rooms(random, out, &record, &command, data)?;
        }
    }
    for record in at_any_widths(random) {
        writeln!(out, "wmetadata {record} {} 60*c3", random.metadata(&record))?;
    }
    given(random, out)?;
    large(random, out)?;
    for _ in 0..WRITTEN {
        let record = any_record(random);
        let metadata = any_metadata(random, &record);
        let room = random.below(70);
        writeln!(out, "wmetadata {record} {metadata} {room}*3c")?;
    }
    Ok(())
}

/// Every checksum type and some beyond its bits, and names about as long as a length byte says.
fn given(random: &mut Random, out: &mut impl Write) -> Result<()> {
    for checksum_type in (0..=31).chain([64, 128, 255]) {
        let record = random.record();
        let metadata = random.metadata(&record);
        let metadata = Metadata {
            checksum_type,
            ..metadata
        };
        writeln!(out, "wmetadata {record} {metadata} 700*3c")?;
    }
    for (source, destination) in
        (253..=258).flat_map(|s| [(s, 3), (3, s), (s, s), (s, 255), (255, s), (511, s)])
    {
        for bits in [32, 33] {
            let record = random.record();
            let metadata = Metadata {
                size: random.edge(bits),
                source_name: random.bytes(source),
                destination_name: random.bytes(destination),
                ..random.metadata(&record)
            };
            writeln!(out, "wmetadata {record} {metadata} 900*3c")?;
        }
    }
    Ok(())
}

/// A data field of 65,534 to 65,537 bytes.
fn large(random: &mut Random, out: &mut impl Write) -> Result<()> {
    for (data, flags) in (65_534..=65_537usize).flat_map(|d| (0..4).map(move |f| (d, f))) {
        let record = Record {
            pdu_type: 0,
            crc: flags & 1,
            large: flags >> 1,
            ..random.record()
        };
        let mut metadata = Metadata {
            source_name: random.bytes(3),
            destination_name: random.bytes(2),
            option_area: Vec::new(),
            ..random.metadata(&record)
        };
        let around = metadata_data(&record, &metadata).len() + 2 * usize::from(record.crc);
        let mut left = data - around;
        while left > 0 {
            let length = (left - 2).min(if left == 258 { 254 } else { 255 });
            metadata.option_area.extend([5, length as u8]);
            metadata.option_area.extend(random.bytes(length));
            left -= 2 + length;
        }
        writeln!(out, "wmetadata {record} {metadata} 65600*3c")?;
    }
    Ok(())
}

/// A type, a file size, names and options that may each be refused.
fn any_metadata(random: &mut Random, record: &Record) -> Metadata {
    let count = random.below(6) as usize;
    let option_area = match random.below(3) {
        0 => random.bytes(count),
        _ => random.metadata(record).option_area,
    };
    Metadata {
        closure: random.bit(),
        checksum_type: random.one_of(&[0, 1, 2, 3, 4, 14, 15, 16]),
        size: random.edge(33),
        source_name: random.name(9),
        destination_name: random.name(9),
        option_area,
    }
}
