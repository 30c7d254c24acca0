//! Inputs of which every one is asked: those of up to two bytes, every (byte 0, byte 3) at the lengths
//! that matter, and every declared length.
use crate::make::{Random, seal};
use crate::show::hex;
use std::io::{Result, Write};

pub fn exhaustive(out: &mut impl Write) -> Result<()> {
    short(out)?;
    // What follows the four fixed bytes is by chance, and every time the same.
    let random = &mut Random(0);
    first_and_fourth(random, out)?;
    every_length(random, out)
}

/// All inputs of no, one and two bytes.
fn short(out: &mut impl Write) -> Result<()> {
    let one = (0..=u8::MAX).map(|a| vec![a]);
    let two = (0..=u16::MAX).map(|ab| ab.to_be_bytes().to_vec());
    for bytes in std::iter::once(Vec::new()).chain(one).chain(two) {
        for command in ["crc", "header", "read"] {
            writeln!(out, "{command} {}", hex(&bytes))?;
        }
    }
    Ok(())
}

/// Each header one short, whole and one longer, and with no byte but the fixed four; each NAK of no
/// pair one short, whole, one longer, without its last data byte, and with no data.
fn first_and_fourth(random: &mut Random, out: &mut impl Write) -> Result<()> {
    for pair in 0..=u16::MAX {
        let [first, fourth] = pair.to_be_bytes();
        let h = 4 + 2 * (usize::from(fourth >> 4 & 7) + 1) + usize::from(fourth & 7) + 1;
        let (scope, crc) = (8 + 8 * (first & 1), first & 2);
        let mut bytes = nak(random, [first, 0, 1 + scope + crc, fourth], h);
        for length in [4, h - 1, h, h + 1] {
            writeln!(out, "header {}", hex(&bytes[..length]))?;
        }
        bytes.extend(random.bytes(1));
        for length in [h, bytes.len() - 2, bytes.len() - 1, bytes.len()] {
            writeln!(out, "read {}", hex(&bytes[..length]))?;
        }
        for data in [0, scope] {
            let bytes = nak(random, [first, 0, data + crc, fourth], h);
            writeln!(out, "read {}", hex(&bytes))?;
        }
    }
    Ok(())
}

/// A PDU with those fixed bytes and a header of h bytes: directive NAK, a good checksum, the rest by
/// chance.
fn nak(random: &mut Random, fixed: [u8; 4], h: usize) -> Vec<u8> {
    let mut bytes = fixed.to_vec();
    bytes.extend(random.bytes(h - 4 + usize::from(fixed[2])));
    if let Some(code) = bytes.get_mut(h) {
        *code = 8;
    }
    seal(&mut bytes);
    bytes
}

/// Every data field length, before fewer bytes than most of them declare.
fn every_length(random: &mut Random, out: &mut impl Write) -> Result<()> {
    for length in 0..=u16::MAX {
        let [high, low] = length.to_be_bytes();
        for (first, fourth) in [(0x28, 0x00), (0x2f, 0x77)] {
            let mut bytes = vec![first, high, low, fourth];
            bytes.extend(random.bytes(40));
            seal(&mut bytes);
            writeln!(out, "header {}", hex(&bytes[..28]))?;
            writeln!(out, "read {}", hex(&bytes))?;
        }
    }
    Ok(())
}
