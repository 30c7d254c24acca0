//! EOFs, read and written on both sides of each boundary that document 02's C-01 names.
use super::directive::{
    at_any_widths, at_every_shape, beginnings, damaged, declared, lengths, rooms,
};
use super::writing::any_record;
use crate::command::Eof;
use crate::make::{Random, WIDTHS, eof_data, pdu, size_len};
use crate::show::hex;
use crate::{Field, Record};
use std::io::{Result, Write};

const DAMAGED: usize = 20_000;
const BEGUN: usize = 100;
const WRITTEN: usize = 5_000;

pub fn reads(random: &mut Random, out: &mut impl Write) -> Result<()> {
    conditions(random, out)?;
    locations(random, out)?;
    for record in at_every_shape(random) {
        boundaries(random, out, record)?;
    }
    for _ in 0..DAMAGED {
        let bytes = any(random);
        damaged(random, out, "eof", bytes)?;
    }
    for _ in 0..BEGUN {
        let bytes = any(random);
        beginnings(random, out, "eof", bytes)?;
    }
    Ok(())
}

/// An EOF's bytes, good but for the condition code.
fn any(random: &mut Random) -> Vec<u8> {
    let record = random.record();
    let eof = random.eof(&record);
    pdu(record, &eof_data(&record, &eof))
}

/// Every byte of condition code and spare bits, with no fault location and with each of its widths.
fn conditions(random: &mut Random, out: &mut impl Write) -> Result<()> {
    for (condition, flags) in (0..=u8::MAX).flat_map(|c| (0..4).map(move |f| (c, f))) {
        for width in [None].into_iter().chain(WIDTHS.map(Some)) {
            let (crc, large) = (flags & 1, flags >> 1);
            let record = Record {
                crc,
                large,
                ..random.record()
            };
            let fault = width.map(|width| random.field(width));
            let eof = Eof {
                fault,
                ..random.eof(&record)
            };
            let mut data = eof_data(&record, &eof);
            data[1] = condition;
            writeln!(out, "eof {}", hex(&pdu(record, &data)))?;
        }
    }
    Ok(())
}

/// Every type and every length of the field after the file size, its value one short, exact and one
/// longer.
fn locations(random: &mut Random, out: &mut impl Write) -> Result<()> {
    for byte in 0..=u8::MAX {
        for (field_type, width) in [(6, byte), (byte, random.one_of(&[1, 2, 4, 8]))] {
            let length = usize::from(width);
            for length in [length.saturating_sub(1), length, length + 1] {
                let record = random.record();
                let eof = Eof {
                    fault: None,
                    ..random.eof(&record)
                };
                let mut data = eof_data(&record, &eof);
                data.extend([field_type, width]);
                data.extend(random.bytes(length));
                let whole = data.len();
                data.extend(random.bytes(9));
                declared(random, out, "eof", record, &data, whole)?;
            }
        }
    }
    Ok(())
}

/// E at and beside 9, h + 1, the end of the file size and the ends of the fault location's parts.
fn boundaries(random: &mut Random, out: &mut impl Write, record: Record) -> Result<()> {
    let width = random.one_of(&WIDTHS);
    let eof = Eof {
        fault: Some(random.field(width)),
        ..random.eof(&record)
    };
    let mut data = eof_data(&record, &eof);
    let (least, whole) = (6 + size_len(&record), data.len());
    data.extend(random.bytes(3));
    for length in lengths(&record, &[least, least + 2, whole]) {
        declared(random, out, "eof", record, &data, length)?;
    }
    Ok(())
}

pub fn writes(random: &mut Random, out: &mut impl Write) -> Result<()> {
    for record in at_every_shape(random) {
        for _ in 0..2 {
            let eof = random.eof(&record);
            let data = eof_data(&record, &eof).len();
            rooms(random, out, &record, &format!("weof {record} {eof}"), data)?;
        }
    }
    for record in at_any_widths(random) {
        writeln!(out, "weof {record} {} 60*c3", random.eof(&record))?;
    }
    codes(random, out)?;
    for _ in 0..WRITTEN {
        let record = any_record(random);
        let eof = any_eof(random);
        let room = random.below(70);
        writeln!(out, "weof {record} {eof} {room}*3c")?;
    }
    Ok(())
}

/// Every code and some that are none, with every width of the fault location and some that are none.
fn codes(random: &mut Random, out: &mut impl Write) -> Result<()> {
    for code in (0..=17).chain([255, 256, 268]) {
        for width in (0..=9).chain([16, 255, 256, 257]) {
            let record = random.record();
            let fault = Some(Field {
                width,
                value: random.edge(64),
            });
            let eof = random.eof(&record);
            writeln!(
                out,
                "weof {record} {} 70*3c",
                Eof {
                    code,
                    ..eof.clone()
                }
            )?;
            writeln!(out, "weof {record} {} 70*3c", Eof { code, fault, ..eof })?;
        }
    }
    Ok(())
}

/// A code, a file size and a fault location that may each be refused.
fn any_eof(random: &mut Random) -> Eof {
    let width = random.one_of(&[0, 1, 1, 2, 2, 3, 4, 4, 5, 6, 7, 8, 8, 9]);
    let bits = random.one_of(&[8, 16, 32, 64]);
    let fault = Field {
        width,
        value: random.edge(bits),
    };
    Eof {
        code: random.below(17),
        sum: random.edge(32) as u32,
        size: random.edge(33),
        fault: (random.below(3) != 0).then_some(fault),
    }
}
