//! Commands that take a record: writes, comparisons, and records good and bad.
use super::reading::damage;
use super::{at_every_width, with_flags};
use crate::command::Nak;
use crate::make::{Random, WIDTHS, header_len, nak_data, pair_size, pdu};
use crate::show::hex;
use crate::{List, Record};
use std::io::{Result, Write};

const RECORDS: usize = 10_000;

/// Every width and flag, no list and both kinds of list with none, one and three pairs.
pub fn writes(random: &mut Random, out: &mut impl Write) -> Result<()> {
    for flags in 0..128u8 {
        for record in at_every_width(random) {
            let record = with_flags(record, flags);
            let mut without = random.nak(record, 0);
            without.list = List::None;
            write(random, out, &without, record.large, 0)?;
            for (large, pairs) in [(0, 0), (0, 1), (0, 3), (1, 0), (1, 1), (1, 3)] {
                let mut nak = random.nak(Record { large, ..record }, pairs);
                nak.record = record;
                write(random, out, &nak, large, pairs)?;
            }
        }
    }
    Ok(())
}

/// Into a buffer that is one short, exact or longer; the same by reserving and finishing.
pub fn write(
    random: &mut Random,
    out: &mut impl Write,
    nak: &Nak,
    large: u8,
    pairs: usize,
) -> Result<()> {
    let record = Record {
        large,
        ..nak.record
    };
    let data = 1 + (1 + pairs) * pair_size(&record) + 2 * usize::from(record.crc);
    let room = header_len(&record) + data - 1 + random.below(4) as usize;
    writeln!(out, "write {nak} {room}*a5")?;
    let (start, end) = (nak.scope.start, nak.scope.end);
    writeln!(out, "finish {record} {pairs} {start} {end} {room}*5a")
}

/// A record that may have a width that is not allowed, widths that differ, or a value too large.
pub fn any_record(random: &mut Random) -> Record {
    let mut record = random.record();
    match random.below(6) {
        0 => {
            record.source.width = random.below(12);
            record.destination.width = record.source.width;
        }
        1 => record.sequence.width = random.below(12),
        2 => record.destination.width = random.one_of(&WIDTHS),
        3 => record.source.value = random.edge(64),
        _ => (),
    }
    record
}

/// Records good and bad, counts and scopes on both sides of their limits.
pub fn records(random: &mut Random, out: &mut impl Write) -> Result<()> {
    for _ in 0..RECORDS {
        let record = any_record(random);
        let room = random.below(34);
        let size = random.one_of(&[0, 15, 16, 24, 28, 46, 65_536, 100_000]);
        let count = random.one_of(&[0, 1, 2, 5, 4094, 4095, 8190, 8191]);
        let few = random.below(4);
        let (start, end) = (random.edge(33), random.edge(33));
        writeln!(out, "build {record}")?;
        writeln!(out, "wheader {record} {room}*c3")?;
        writeln!(out, "max {record} {size}")?;
        writeln!(out, "reserve {record} {count} {room}*3c")?;
        writeln!(out, "finish {record} {few} {start} {end} 70*3c")?;
        writeln!(out, "write {record} {start} {end} none 70*c3")?;
        writeln!(out, "write {record} {start} {end} n:{few}*0,{size} 70*c3")?;
    }
    Ok(())
}

/// A NAK verified and compared with what was written, and with a NAK that differs in one thing.
pub fn comparisons(random: &mut Random, out: &mut impl Write) -> Result<()> {
    for _ in 0..RECORDS {
        let (record, pairs) = (random.record(), random.below(4) as usize);
        let mut nak = random.nak(
            Record {
                direction: 1,
                ..record
            },
            pairs,
        );
        let mut bytes = pdu(nak.record, &nak_data(&nak));
        nak.record.data_length = (bytes.len() - header_len(&record)) as u16;
        damage(random, &mut bytes);
        writeln!(out, "verify {} {}", nak.record, hex(&bytes))?;
        writeln!(out, "compare {} {nak}", hex(&bytes))?;
        match random.below(5) {
            0 => nak.record.mode ^= 1,
            1 => nak.scope.end ^= 1,
            2 => nak.record.sequence.value ^= 1,
            3 => nak.record.sequence.width = 8,
            _ => nak.list = List::None,
        }
        writeln!(out, "compare {} {nak}", hex(&bytes))?;
    }
    Ok(())
}
