//! Document 01's program naklist over the Rust: at most the first 32,768 bytes of standard input,
//! the same lines. A FromSliceTooSmall is refusal 1 where it speaks of the buffer's own length and
//! 6 otherwise, which is exact on the bytes that document 01 compares; on the others it prints
//! 'outside'.
use spacepackets::ByteConversionError;
use spacepackets::cfdp::pdu::nak::NakPduReader;
use spacepackets::cfdp::pdu::{CfdpPdu, PduError};
use std::io::{Read, Result, stdin};
use tools::{domain, show};

fn main() -> Result<()> {
    let mut bytes = Vec::new();
    stdin().take(32768).read_to_end(&mut bytes)?;
    if !domain::reading(&bytes) {
        println!("outside");
        return Ok(());
    }
    match NakPduReader::new(&bytes) {
        Ok(nak) => list(&nak, &bytes),
        Err(error) => println!("{}", show::refused(&refusal(&error, bytes.len()))),
    }
    Ok(())
}

fn list(nak: &NakPduReader, bytes: &[u8]) {
    let (source, sequence) = (nak.source_id().value(), nak.transaction_seq_num().value());
    println!("nak {source} {sequence} {}", nak.dest_id().value());
    println!("scope {} {}", nak.start_of_scope(), nak.end_of_scope());
    for (start, end) in nak.get_segment_requests_iterator().into_iter().flatten() {
        println!("request {start} {end}");
    }
    let data_end = nak.pdu_header().verify_length_and_checksum(bytes);
    println!("end {}", data_end.expect("an accepted NAK was verified"));
}

/// Document 01's number for an error of the reader's, and its values.
fn refusal(error: &PduError, length: usize) -> Vec<u64> {
    match *error {
        PduError::ByteConversion(ByteConversionError::FromSliceTooSmall { found, expected }) => {
            let number = if found == length { 1 } else { 6 };
            vec![number, found as u64, expected as u64]
        }
        PduError::CfdpVersionMissmatch(version) => vec![2, version.into()],
        PduError::InvalidEntityLen(width) => vec![3, width.into()],
        PduError::InvalidTransactionSeqNumLen(width) => vec![4, width.into()],
        PduError::Checksum(last) => vec![5, last.into()],
        PduError::InvalidDirectiveType { found, .. } => vec![7, found.into()],
        PduError::WrongDirectiveType { found, .. } => vec![8, found as u64],
        other => unreachable!("the reader gives no {other:?}"),
    }
}
