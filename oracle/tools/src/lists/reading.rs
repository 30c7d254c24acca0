//! Commands that read: checksums, headers and NAKs, whole, cut and damaged.
use super::at_every_width;
use crate::make::{Random, WIDTHS, nak_data, pdu, seal};
use crate::show::hex;
use std::io::{Result, Write};

const CHECKSUMS: usize = 5_000;
const DAMAGED: usize = 60_000;
const ANY: usize = 90_000;
const BEGUN: usize = 600;

/// Of every length up to some hundred bytes, so that each form of the checksum has a rest to do.
pub fn checksums(random: &mut Random, out: &mut impl Write) -> Result<()> {
    for turn in 0..CHECKSUMS {
        writeln!(out, "crc {}", hex(&random.bytes(turn % 200)))?;
    }
    Ok(())
}

/// Every (byte 0, byte 3), before bytes by chance.
pub fn first_and_fourth_bytes(random: &mut Random, out: &mut impl Write) -> Result<()> {
    for pair in 0..=u16::MAX {
        let [first, fourth] = pair.to_be_bytes();
        let mut bytes = random.bytes(68);
        bytes[..4].copy_from_slice(&[first, 0, random.below(40) as u8, fourth]);
        let header = 4 + 2 * (usize::from(fourth >> 4 & 7) + 1) + usize::from(fourth & 7) + 1;
        if random.below(4) != 0 {
            bytes[header] = 8;
            seal(&mut bytes);
        }
        writeln!(out, "read {}", hex(&bytes))?;
        let cut = random.below(32) as usize;
        writeln!(out, "header {}", hex(&bytes[..cut]))?;
    }
    Ok(())
}

/// Every directive code, with room for the greatest scope, to each of those readers.
pub fn directives(random: &mut Random, out: &mut impl Write, readers: &[&str]) -> Result<()> {
    for code in 0..=u8::MAX {
        for command in readers {
            let mut data = random.bytes(40);
            data[0] = code;
            writeln!(out, "{command} {}", hex(&pdu(random.record(), &data)))?;
        }
    }
    Ok(())
}

/// Every data length from none to 40, at every width and both number sizes, in a buffer one short,
/// exact and longer.
pub fn short_data(random: &mut Random, out: &mut impl Write) -> Result<()> {
    for (length, flags) in (0..=40).flat_map(|n| (0..4).map(move |f| (n, f))) {
        for mut record in at_every_width(random) {
            (record.crc, record.large) = (flags & 1, flags >> 1);
            let mut data = random.bytes(length);
            if let Some(code) = data.first_mut() {
                *code = 8;
            }
            let mut bytes = pdu(record, &data);
            writeln!(out, "read {}", hex(&bytes[..bytes.len() - 1]))?;
            writeln!(out, "read {}", hex(&bytes))?;
            bytes.extend(random.bytes(3));
            writeln!(out, "read {}", hex(&bytes))?;
        }
    }
    Ok(())
}

/// Bytes cut, lengthened or changed, perhaps with the checksum made good again.
pub fn damage(random: &mut Random, bytes: &mut Vec<u8>) {
    for _ in 0..random.below(3) {
        let at = random.below(bytes.len() as u64) as usize;
        match random.below(5) {
            0 => bytes.truncate(at.max(1)),
            1 => {
                let more = random.below(6) as usize;
                bytes.extend(random.bytes(more));
            }
            2 => bytes[at] = random.number() as u8,
            3 => bytes[at.min(2)] ^= 1 << random.below(8),
            _ => bytes[at] ^= 1 << random.below(8),
        }
    }
    if random.bit() == 1 {
        seal(bytes);
    }
}

pub fn damaged_naks(random: &mut Random, out: &mut impl Write) -> Result<()> {
    for _ in 0..DAMAGED {
        let (record, pairs) = (random.record(), random.below(5) as usize);
        let mut data = nak_data(&random.nak(record, pairs));
        if random.below(4) == 0 {
            let part = random.below(16) as usize;
            data.extend(random.bytes(part));
        }
        let mut bytes = pdu(record, &data);
        damage(random, &mut bytes);
        writeln!(out, "read {}", hex(&bytes))?;
    }
    Ok(())
}

/// Bytes by chance of every length up to 90, most of them with a header that is accepted and with a
/// PDU that ends near the buffer's end.
pub fn any_bytes(random: &mut Random, out: &mut impl Write) -> Result<()> {
    for turn in 0..ANY {
        let mut bytes = random.bytes(turn % 90);
        let length = bytes.len();
        if let [first, high, low, widths, ..] = &mut bytes[..]
            && random.below(8) != 0
        {
            let (entity, sequence) = (random.one_of(&WIDTHS), random.one_of(&WIDTHS));
            *first = *first & 0x1f | 0x20;
            *widths = *widths & 0x88 | ((entity - 1) << 4 | (sequence - 1)) as u8;
            let header = (4 + 2 * entity + sequence) as usize;
            let data = (length + random.below(3) as usize).saturating_sub(header + 1);
            (*high, *low) = (0, data as u8);
            if let Some(code) = bytes.get_mut(header)
                && random.below(4) != 0
            {
                *code = 8;
            }
            seal(&mut bytes);
        }
        let command = random.one_of(&["read", "read", "header"]);
        writeln!(out, "{command} {}", hex(&bytes))?;
    }
    Ok(())
}

/// Each beginning of good NAKs, and all of it, as a receiver gets to see them.
pub fn beginnings(random: &mut Random, out: &mut impl Write) -> Result<()> {
    for _ in 0..BEGUN {
        let (record, pairs) = (random.record(), random.below(4) as usize);
        let bytes = pdu(record, &nak_data(&random.nak(record, pairs)));
        for length in 0..=bytes.len() {
            writeln!(out, "read {}", hex(&bytes[..length]))?;
        }
    }
    Ok(())
}
