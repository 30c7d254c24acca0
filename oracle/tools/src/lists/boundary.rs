//! Every width and flag on both sides of each boundary that document 01 names.
use super::at_every_shape;
use crate::command::Nak;
use crate::make::{Random, header, header_len, nak_data, nak_len, pair_size, pdu, seal};
use crate::show::hex;
use crate::{List, Record};
use std::io::{Result, Write};

/// Data that ends at or beside 9, h + 1, h + 1 + F and whole pairs, in buffers one short, exact and
/// one longer; some with another directive, some with a bad checksum.
pub fn reads(random: &mut Random, out: &mut impl Write) -> Result<()> {
    for record in at_every_shape(random) {
        let (h, f) = (header_len(&record), pair_size(&record));
        let near_nine = [8, 9, 10].map(|end: usize| end.saturating_sub(h));
        let near_pairs = [
            0,
            1,
            2,
            f,
            f + 1,
            f + 2,
            2 * f,
            2 * f + 1,
            2 * f + 2,
            3 * f + 1,
        ];
        for length in near_nine.into_iter().chain(near_pairs) {
            let mut data = random.bytes(length);
            if let Some(code) = data.first_mut() {
                *code = random.one_of(&[8, 8, 8, 8, 8, 8, 0, 3, 4, 7, 9, 10, 11, 12, 13, 255]);
            }
            let mut bytes = pdu(record, &data);
            if random.below(4) == 0 {
                let last = bytes.len() - 1 - random.below(2) as usize;
                bytes[last] ^= 1 << random.below(8);
            }
            beside(random, out, "read", bytes)?;
        }
        no_room_for_checksum(random, out, record)?;
    }
    Ok(())
}

/// A length of 0 or 1 with the CRC flag: the checksum begins inside the header.
fn no_room_for_checksum(
    random: &mut Random,
    out: &mut impl Write,
    mut record: Record,
) -> Result<()> {
    for length in 0..u16::from(record.crc) * 2 {
        record.data_length = length;
        let mut bytes = header(&record);
        bytes.extend(random.bytes(length.into()));
        if random.below(4) != 0 {
            seal(&mut bytes);
        }
        beside(random, out, "read", bytes)?;
    }
    Ok(())
}

/// The bytes less one, themselves, and one more.
fn beside(
    random: &mut Random,
    out: &mut impl Write,
    command: &str,
    mut bytes: Vec<u8>,
) -> Result<()> {
    bytes.extend(random.bytes(1));
    for length in bytes.len() - 2..=bytes.len() {
        writeln!(out, "{command} {}", hex(&bytes[..length]))?;
    }
    Ok(())
}

/// Headers built, written, read and verified.
pub fn headers(random: &mut Random, out: &mut impl Write) -> Result<()> {
    for mut record in at_every_shape(random) {
        let h = header_len(&record);
        let without_destination = h - record.destination.width as usize;
        writeln!(out, "build {record}")?;
        for room in [0, 3, 4, without_destination - 1, h - 1, h, h + 1, h + 9] {
            let fill = random.number() as u8;
            writeln!(out, "wheader {record} {room}*{fill:02x}")?;
        }
        beside(random, out, "header", header(&record))?;
        let length = random.below(12) as usize;
        let mut bytes = pdu(record, &random.bytes(length));
        if random.below(4) == 0 {
            let at = random.below(bytes.len() as u64) as usize;
            bytes[at] ^= 1 << random.below(8);
        }
        record.data_length = (bytes.len() - h) as u16;
        beside(random, out, &format!("verify {record}"), bytes)?;
        // Shorter than its checksum, as above.
        record.data_length = random.below(3) as u16;
        let bytes = random.bytes(h + usize::from(record.data_length));
        beside(random, out, &format!("verify {record}"), bytes)?;
    }
    Ok(())
}

/// No list and both kinds of list, none, one and three pairs, into buffers one short, exact and one
/// longer; the same reserved, and finished over requests that the buffer already holds.
pub fn naks(random: &mut Random, out: &mut impl Write) -> Result<()> {
    for record in at_every_shape(random) {
        let mut without = random.nak(record, 0);
        without.list = List::None;
        write(random, out, &without, record)?;
        for (large, pairs) in [(0, 0), (0, 1), (0, 3), (1, 0), (1, 1), (1, 3)] {
            let flagged = Record { large, ..record };
            let mut nak = random.nak(flagged, pairs);
            nak.record = record;
            write(random, out, &nak, flagged)?;
            if record.large == large {
                reserve(random, out, &nak, pairs)?;
            }
        }
    }
    Ok(())
}

/// `flagged` is the record with the large file flag that the writer gives it.
fn write(random: &mut Random, out: &mut impl Write, nak: &Nak, flagged: Record) -> Result<()> {
    let whole = nak_len(&flagged, nak.list.pairs());
    let fill = random.number() as u8;
    for room in whole - 1..=whole + 1 {
        writeln!(out, "write {nak} {room}*{fill:02x}")?;
    }
    Ok(())
}

fn reserve(random: &mut Random, out: &mut impl Write, nak: &Nak, pairs: usize) -> Result<()> {
    let Nak { record, scope, .. } = nak;
    let whole = nak_len(record, pairs);
    for room in whole - 1..=whole + 1 {
        writeln!(out, "reserve {record} {pairs} {room}*5a")?;
        let buf = hex(&random.bytes(room));
        let (start, end) = (scope.start, scope.end);
        writeln!(out, "finish {record} {pairs} {start} {end} {buf}")?;
    }
    Ok(())
}

/// Packet sizes beside the least that is accepted, beside one pair more, beside as many pairs as fit
/// and beside one pair more than these.
pub fn sizes(random: &mut Random, out: &mut impl Write) -> Result<()> {
    for record in at_every_shape(random) {
        let f = pair_size(&record);
        let most = if record.large == 1 { 4094 } else { 8190 };
        let (least, full) = (nak_len(&record, 0), nak_len(&record, most));
        let near = [least, least + f, full, full + f].map(|size| size - 1..=size + 1);
        let far = [0, 65_536, usize::MAX, random.below(70_000) as usize];
        for size in near.into_iter().flatten().chain(far) {
            writeln!(out, "max {record} {size}")?;
        }
    }
    Ok(())
}

/// A buffer compared with the NAK that it holds, and with each that differs from it in one thing.
pub fn differences(random: &mut Random, out: &mut impl Write) -> Result<()> {
    for mut record in at_every_shape(random) {
        if random.below(8) != 0 {
            record.direction = 1;
        }
        let pairs = random.below(3) as usize;
        let nak = random.nak(record, pairs);
        let bytes = hex(&pdu(record, &nak_data(&nak)));
        writeln!(out, "compare {bytes} {nak}")?;
        for thing in 0..THINGS {
            let other = differing(&nak, thing, random.number());
            writeln!(out, "compare {bytes} {other}")?;
        }
    }
    Ok(())
}

const THINGS: usize = 17;

/// The NAK with that one thing changed; `by` says how much. An identifier of another width is the
/// same by number where it fits.
fn differing(nak: &Nak, thing: usize, by: u64) -> Nak {
    let mut nak = nak.clone();
    let record = &mut nak.record;
    match thing {
        0 => record.pdu_type ^= 1,
        1 => record.direction ^= 1,
        2 => record.mode ^= 1,
        3 => record.crc ^= 1,
        4 => record.large ^= 1,
        5 => record.segmentation_control ^= 1,
        6 => record.segment_metadata ^= 1,
        7 => record.data_length ^= by as u16,
        8 => record.source.value ^= 1,
        9 => record.sequence.value ^= 1,
        10 => record.destination.value ^= 1,
        11 => (record.source.width, record.destination.width) = (8, 8),
        12 => record.sequence.width = 8,
        13 => nak.scope.start ^= 1 << (by % 32),
        14 => nak.scope.end ^= 1 << (by % 32),
        15 => nak.list = List::None,
        _ => nak.list = changed(nak.list, by),
    }
    nak
}

/// One number of the list changed, or a pair more or fewer.
fn changed(mut list: List, by: u64) -> List {
    fn change<T: Copy + From<u8>>(numbers: &mut Vec<T>, by: u64, flip: impl Fn(T) -> T) {
        match numbers.len() {
            0 => numbers.extend([T::from(1), T::from(2)]),
            n if by & 3 == 0 => numbers.truncate(n - 2),
            _ if by & 3 == 1 => numbers.extend([T::from(1), T::from(2)]),
            n => {
                let at = (by >> 8) as usize % n;
                numbers[at] = flip(numbers[at]);
            }
        }
    }
    match &mut list {
        List::None => (),
        List::Normal(numbers) => change(numbers, by, |n| n ^ 1 << (by >> 2 & 31)),
        List::Large(numbers) => change(numbers, by, |n| n ^ 1 << (by >> 2 & 63)),
    }
    list
}
