//! ACKs, read and written on both sides of each boundary that document 02's C-01 names.
use super::directive::{
    at_any_widths, at_every_shape, beginnings, damaged, declared, lengths, rooms,
};
use super::writing::any_record;
use crate::Record;
use crate::command::Ack;
use crate::make::{Random, ack_data, ack_record, pdu};
use crate::show::hex;
use std::io::{Result, Write};

const DAMAGED: usize = 10_000;
const BEGUN: usize = 100;
const WRITTEN: usize = 5_000;

pub fn reads(random: &mut Random, out: &mut impl Write) -> Result<()> {
    second_and_third_bytes(random, out)?;
    for record in at_every_shape(random) {
        boundaries(random, out, record)?;
    }
    for _ in 0..DAMAGED {
        let bytes = any(random);
        damaged(random, out, "ack", bytes)?;
    }
    for _ in 0..BEGUN {
        let bytes = any(random);
        beginnings(random, out, "ack", bytes)?;
    }
    Ok(())
}

/// An ACK's bytes, good but for the condition code, most of them with the direction that its writer
/// gives it.
fn any(random: &mut Random) -> Vec<u8> {
    let (record, ack) = (random.record(), random.ack());
    pdu(directed(random, record, &ack), &ack_data(&ack))
}

fn directed(random: &mut Random, record: Record, ack: &Ack) -> Record {
    match random.below(8) {
        0 => record,
        _ => ack_record(record, ack),
    }
}

/// Every acknowledged directive, subtype, condition code, spare bit and status.
fn second_and_third_bytes(random: &mut Random, out: &mut impl Write) -> Result<()> {
    for pair in 0..=u16::MAX {
        let [second, third] = pair.to_be_bytes();
        let directive = u64::from(second >> 4);
        let ack = Ack {
            directive,
            ..random.ack()
        };
        let record = random.record();
        let record = directed(random, record, &ack);
        writeln!(out, "ack {}", hex(&pdu(record, &[6, second, third])))?;
    }
    Ok(())
}

/// E at and beside 9, h + 1 and h + 3, and beyond.
fn boundaries(random: &mut Random, out: &mut impl Write, record: Record) -> Result<()> {
    let ack = random.ack();
    let record = directed(random, record, &ack);
    let mut data = ack_data(&ack);
    data.extend(random.bytes(5));
    for length in lengths(&record, &[3]) {
        declared(random, out, "ack", record, &data, length)?;
    }
    Ok(())
}

pub fn writes(random: &mut Random, out: &mut impl Write) -> Result<()> {
    for record in at_every_shape(random) {
        for directive in [4, 5] {
            let ack = Ack {
                directive,
                ..random.ack()
            };
            rooms(random, out, &record, &format!("wack {record} {ack}"), 3)?;
        }
    }
    for record in at_any_widths(random) {
        writeln!(out, "wack {record} {} 40*c3", random.ack())?;
    }
    codes(random, out)?;
    for _ in 0..WRITTEN {
        let record = any_record(random);
        let ack = Ack {
            directive: random.one_of(&[4, 4, 4, 5, 5, 5, 6, 8, 13]),
            code: random.below(17),
            status: random.below(4),
        };
        let room = random.below(40);
        writeln!(out, "wack {record} {ack} {room}*3c")?;
    }
    Ok(())
}

/// Every directive, code and status, and some that are none.
fn codes(random: &mut Random, out: &mut impl Write) -> Result<()> {
    let beyond = [255, 256, 260];
    for directive in (0..=17).chain(beyond) {
        for code in (0..=17).chain(beyond) {
            for status in (0..=4).chain([255, 256]) {
                let ack = Ack {
                    directive,
                    code,
                    status,
                };
                writeln!(out, "wack {} {ack} 40*3c", random.record())?;
            }
        }
    }
    Ok(())
}
