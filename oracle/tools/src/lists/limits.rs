//! Widths that are not allowed or not equal, and as many pairs as fit, one fewer and one more.
use crate::make::{Random, nak_data, nak_len, pdu};
use crate::show::hex;
use crate::{Field, List, Record};
use std::io::{Result, Write};

/// Every width that a header can say, the least and the greatest beside, and a byte's greatest.
pub const ANY_WIDTH: [u64; 12] = [0, 1, 2, 3, 4, 5, 6, 7, 8, 9, 16, 255];

/// Document 01's N, which every comparison accepts first.
const N: &str = "280011000102030800000000000003e800000064000000c8";

/// Every three widths, to every command that takes a record.
pub fn widths(random: &mut Random, out: &mut impl Write) -> Result<()> {
    for source in ANY_WIDTH {
        for sequence in ANY_WIDTH {
            for destination in ANY_WIDTH {
                with_widths(random, out, [source, sequence, destination])?;
            }
        }
    }
    Ok(())
}

fn with_widths(random: &mut Random, out: &mut impl Write, widths: [u64; 3]) -> Result<()> {
    let [source, sequence, destination] = widths.map(|width| Field {
        width,
        value: random.below(256),
    });
    let record = Record {
        source,
        sequence,
        destination,
        ..random.record()
    };
    let pairs = random.below(3);
    let (start, end) = (random.edge(32), random.edge(32));
    writeln!(out, "build {record}")?;
    writeln!(out, "wheader {record} 40*c3")?;
    writeln!(out, "max {record} 100")?;
    writeln!(out, "verify {record} {}", hex(&random.bytes(40)))?;
    writeln!(out, "reserve {record} {pairs} 90*c3")?;
    writeln!(out, "finish {record} {pairs} {start} {end} 90*c3")?;
    writeln!(out, "write {record} {start} {end} none 90*c3")?;
    writeln!(out, "write {record} {start} {end} n:{pairs}*1,2 90*c3")?;
    writeln!(out, "write {record} {start} {end} l:{pairs}*1,2 90*c3")?;
    writeln!(out, "compare {N} {record} {start} {end} none")?;
    writeln!(out, "compare {N} {record} {start} {end} n:1,2")?;
    writeln!(out, "compare {N} {record} {start} {end} l:1,2")
}

/// Beside 8,190 normal and 4,094 large pairs, with and without checksum.
pub fn pairs(random: &mut Random, out: &mut impl Write) -> Result<()> {
    for (large, most) in [(0, 8190), (1, 4094)] {
        for crc in [0, 1] {
            for pairs in most - 1..=most + 1 {
                let record = Record {
                    crc,
                    large,
                    ..random.record()
                };
                near_the_most(random, out, record, pairs)?;
            }
        }
    }
    Ok(())
}

fn near_the_most(
    random: &mut Random,
    out: &mut impl Write,
    record: Record,
    pairs: usize,
) -> Result<()> {
    let nak = random.nak(record, pairs);
    let (start, end) = (nak.scope.start, nak.scope.end);
    let whole = nak_len(&record, pairs);
    for room in whole - 1..=whole + 1 {
        writeln!(out, "write {nak} {room}*c3")?;
        writeln!(out, "reserve {record} {pairs} {room}*c3")?;
        writeln!(out, "finish {record} {pairs} {start} {end} {room}*c3")?;
    }
    writeln!(out, "reserve {record} {pairs} 20*c3")?;
    writeln!(out, "write {nak} 20*c3")?;
    // What does not fit a 16-bit length can be written by no one, and so not be read.
    if whole - nak_len(&record, 0) < 65_520 {
        let bytes = pdu(record, &nak_data(&nak));
        writeln!(out, "read {}", hex(&bytes))?;
        writeln!(out, "read {}", hex(&bytes[..bytes.len() - 1]))?;
        writeln!(out, "compare {} {nak}", hex(&bytes))?;
    }
    Ok(())
}

/// Numbers odd in count, which is the port's own refusal.
pub fn odd(random: &mut Random, out: &mut impl Write) -> Result<()> {
    for _ in 0..100 {
        let record = random.record();
        let mut nak = random.nak(record, 2);
        match &mut nak.list {
            List::None => (),
            List::Normal(numbers) => numbers.truncate(3),
            List::Large(numbers) => numbers.truncate(3),
        }
        writeln!(out, "write {nak} 90*c3")?;
    }
    Ok(())
}
