//! EOFs, ACKs and Metadata PDUs by chance, to be read and to be written.
use super::reading::damage;
use super::writing::any_record;
use crate::make::{Random, pdu};
use crate::show::{fault, hex};
use std::io::{Result, Write};

const READ: usize = 20_000;
const WRITTEN: usize = 10_000;

/// The data of an EOF, an ACK and a Metadata PDU, mostly good.
fn data_of_each(random: &mut Random, large: u8) -> [(&'static str, Vec<u8>); 3] {
    let size = if large == 1 { 8 } else { 4 };
    let mut eof = vec![4, (random.below(16) << 4) as u8];
    eof.extend(random.bytes(4 + size));
    if random.bit() == 1 {
        let width = random.one_of(&[1, 2, 3, 4, 8]);
        eof.extend([6, width]);
        eof.extend(random.bytes(width.into()));
    }
    let of = random.one_of(&[0x40, 0x51, 0x41, 0x60, 0xf0]);
    let ack = vec![6, of, random.number() as u8];
    let mut metadata = vec![7, random.number() as u8 & 0x43];
    metadata.extend(random.bytes(size));
    // Two names, which have no type, and two options.
    for option_type in [None, None, Some(2), Some(0xaa)] {
        metadata.extend(option_type);
        let length = random.below(6) as usize;
        metadata.push(length as u8);
        metadata.extend(random.bytes(length));
    }
    [("eof", eof), ("ack", ack), ("metadata", metadata)]
}

pub fn reads(random: &mut Random, out: &mut impl Write) -> Result<()> {
    for _ in 0..READ {
        let record = random.record();
        for (command, data) in data_of_each(random, record.large) {
            let mut bytes = pdu(record, &data);
            damage(random, &mut bytes);
            writeln!(out, "{command} {}", hex(&bytes))?;
        }
    }
    Ok(())
}

pub fn writes(random: &mut Random, out: &mut impl Write) -> Result<()> {
    for _ in 0..WRITTEN {
        let record = any_record(random);
        let (code, status) = (random.below(17), random.below(5));
        let (sum, size) = (random.edge(32), random.edge(33));
        let width = random.one_of(&[1, 2, 3, 4, 8]);
        let location = random.field(width);
        let location = fault(&(random.bit() == 1).then_some(location));
        let room = random.below(70);
        writeln!(
            out,
            "weof {record} {code} {sum} {size} {location} {room}*99"
        )?;
        let directive = random.one_of(&[4, 4, 5, 5, 6, 8, 13]);
        writeln!(out, "wack {record} {directive} {code} {status} {room}*99")?;
        let closure = random.bit();
        let checksum_type = random.one_of(&[0, 1, 2, 3, 4, 15]);
        let count = random.below(5) as usize;
        let name = hex(&random.bytes(count));
        let words = format!("{closure} {checksum_type} {size} {name} 626d {name}");
        writeln!(out, "wmetadata {record} {words} {room}*99")?;
    }
    Ok(())
}
