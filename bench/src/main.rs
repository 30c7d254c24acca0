//! Times port and Rust on the same inputs, by turns, and prints the medians as a table in Markdown.
mod differ;
mod directive;
mod header;
mod metadata;
mod nak;
mod owed;
mod plan;
mod ranges;
mod stream;
mod timing;
mod typed;

use nak::Sample;
use spacepackets::crc::{CRC_CCITT_FALSE, CRC_CCITT_FALSE_NO_TABLE};
use std::hint::black_box;
use timing::{SAMPLES, row};

fn main() {
    println!("Medians of {SAMPLES} samples, taken by turns.\n");
    println!("| What | Rust, ns | port, ns | port / Rust | of the least times |");
    println!("|---|---:|---:|---:|---:|");
    checksums();
    for pairs in [1, 100, 8190] {
        for crc in [false, true] {
            let sample = Sample::new(pairs, crc);
            let plural = if pairs == 1 { "" } else { "s" };
            let about = format!("{pairs} pair{plural}{}", if crc { ", CRC" } else { "" });
            sample.read(&format!("read and walk {about}"));
            sample.write(&format!("write {about}"));
        }
    }
    for (crc, about) in [(false, ""), (true, ", CRC")] {
        directive::eof(crc, false, about);
        directive::eof(crc, true, &format!(" with a fault location{about}"));
        directive::ack(crc, about);
    }
    for (crc, about) in [(false, ""), (true, ", CRC")] {
        metadata::metadata(crc, 0, about);
        metadata::metadata(crc, 8, &format!(" with 8 options{about}"));
    }
    for pairs in [10, 100, 1000, 8190] {
        differ::row_of(pairs);
    }
    // So many pairs a NAK, and so many times the log.
    for (pairs, times) in [(2, 1), (10, 1), (20, 1), (20, 10)] {
        owed::row_of(pairs, times);
    }
    for missing in [100, 1000, 8190] {
        plan::plans(missing);
    }
    // 16 bytes and 8 for each pair: NAKs of 24 and of 1,000 bytes.
    for pairs in [1, 123] {
        let sample = Sample::new(pairs, false);
        let length = sample.bytes.len();
        sample.beginnings(&format!("read each beginning of a NAK of {length} bytes"));
    }
    stream::table();
    println!("\n| Typed names over the bare functions | bare, ns | typed, ns | typed / bare | of the least times |");
    println!("|---|---:|---:|---:|---:|");
    for pairs in [1, 100] {
        typed::nak(pairs);
    }
}

/// The Rust's PDUs go through its table of 256 remainders; it also has the form without one.
fn checksums() {
    // A static, so that no use of it copies the table.
    static TABLE: crc_types::Table = CRC_CCITT_FALSE;
    static NO_TABLE: crc_types::NoTable = CRC_CCITT_FALSE_NO_TABLE;
    let spread = |k: u32| (k.wrapping_mul(2_654_435_761) >> 13) as u8;
    let bytes: Vec<u8> = (0..65_536).map(spread).collect();
    let ours = || port::ffi::checksum(black_box(&bytes));
    assert_eq!(TABLE.checksum(&bytes), ours());
    let by_table = || TABLE.checksum(black_box(&bytes));
    row("checksum over 64 KiB, the Rust by table", by_table, ours);
    let by_bits = || NO_TABLE.checksum(black_box(&bytes));
    row("checksum over 64 KiB, the Rust bit by bit", by_bits, ours);
}

/// The types of the Rust's two constants.
mod crc_types {
    pub type Table = crc::Crc<u16>;
    pub type NoTable = crc::Crc<u16, crc::NoTable>;
}
