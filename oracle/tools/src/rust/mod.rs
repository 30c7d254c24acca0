//! The Rust asked: plain records to its types and back, its errors and its panics as text.
pub mod base;
pub mod eof_ack_metadata;

use crate::{Command, Field, Record, show};
use spacepackets::ByteConversionError;
use spacepackets::cfdp::pdu::ack::InvalidAckedDirectiveCodeError;
use spacepackets::cfdp::pdu::nak::{InvalidStartOrEndOfScopeError, TooSmallForPduHeaderError};
use spacepackets::cfdp::pdu::{CommonPduConfig, PduError, PduHeader};
use spacepackets::cfdp::{
    CrcFlag, Direction, LargeFileFlag, PduType, SegmentMetadataFlag, SegmentationControl,
    TlvLvDataTooLargeError, TransmissionMode,
};
use spacepackets::util::UnsignedByteField;
use std::fmt::Debug;
use std::panic::{AssertUnwindSafe, catch_unwind};

/// The text of an answer; `Err` where the Rust gave an error.
pub type Answer = Result<String, Refused>;

/// The text of an answer that is not 'ok'.
pub struct Refused(pub String);

/// The Rust's types hold no such value, so nothing was called.
pub fn not_made() -> Refused {
    Refused("not made".to_string())
}

/// The answer to a command, less the word for the domain.
pub fn perform(command: Command) -> String {
    use Command::*;
    match command {
        Crc(bytes) => asked(|| base::crc(&bytes)),
        Header(bytes) => asked(|| base::header(&bytes)),
        Build(record) => asked(|| base::build(&record)),
        Verify(record, bytes) => asked(|| base::verify(&record, &bytes)),
        WriteHeader(record, buf) => lending(buf, |b| base::write_header(&record, b)),
        MostRequests(record, size) => asked(|| base::most_requests(&record, size)),
        Read(bytes) => asked(|| base::read(&bytes)),
        Write(nak, buf) => lending(buf, |b| base::write(&nak, b)),
        WriteSized(nak, buf) => lending(buf, |b| base::write_sized(&nak, b)),
        Reserve(record, count, buf) => lending(buf, |b| base::reserve(&record, count, b)),
        Finish(record, count, scope, buf) => {
            lending(buf, |b| base::finish(&record, count, &scope, b))
        }
        Compare(bytes, nak) => asked(|| base::compare(&bytes, &nak)),
        Eof(bytes) => asked(|| eof_ack_metadata::eof(&bytes)),
        Ack(bytes) => asked(|| eof_ack_metadata::ack(&bytes)),
        Metadata(bytes) => asked(|| eof_ack_metadata::metadata(&bytes)),
        WriteEof(record, eof, buf) => {
            lending(buf, |b| eof_ack_metadata::write_eof(&record, &eof, b))
        }
        WriteAck(record, ack, buf) => {
            lending(buf, |b| eof_ack_metadata::write_ack(&record, &ack, b))
        }
        WriteMetadata(record, metadata, buf) => lending(buf, |b| {
            eof_ack_metadata::write_metadata(&record, &metadata, b)
        }),
        Receive(_) | Differ(..) | Owed(_) | CheckPlan(..) | Plan(..) => {
            show::NOT_IN_RUST.to_string()
        }
    }
}

/// What `call` says, or 'panic'.
pub fn asked(call: impl FnOnce() -> Answer) -> String {
    match catch_unwind(AssertUnwindSafe(call)) {
        Ok(Ok(text) | Err(Refused(text))) => text,
        Err(_) => "panic".to_string(),
    }
}

/// The same of a call that is given a buffer, with the buffer as it stands afterwards.
pub fn lending(mut buf: Vec<u8>, call: impl FnOnce(&mut [u8]) -> Answer) -> String {
    let text = asked(|| call(&mut buf));
    show::with_buffer(&text, &buf)
}

fn field(field: &Field) -> UnsignedByteField {
    UnsignedByteField::new(field.width as usize, field.value)
}

/// The Rust's record, made by its public constructors.
fn header_of(r: &Record) -> Result<PduHeader, PduError> {
    const BIT: &str = "the parser lets a flag be 0 or 1";
    let config = CommonPduConfig::new(
        field(&r.source),
        field(&r.destination),
        field(&r.sequence),
        TransmissionMode::try_from(r.mode).expect(BIT),
        LargeFileFlag::try_from(r.large).expect(BIT),
        CrcFlag::try_from(r.crc).expect(BIT),
        Direction::try_from(r.direction).expect(BIT),
    )?;
    Ok(PduHeader::new_generic(
        PduType::try_from(r.pdu_type).expect(BIT),
        config,
        r.data_length,
        SegmentMetadataFlag::try_from(r.segment_metadata).expect(BIT),
        SegmentationControl::try_from(r.segmentation_control).expect(BIT),
    ))
}

/// The numbers of a record of the Rust's.
fn record_of(header: &PduHeader) -> Record {
    let config = header.common_pdu_conf();
    let field = |f: UnsignedByteField| Field {
        width: f.size() as u64,
        value: f.value(),
    };
    Record {
        pdu_type: header.pdu_type() as u8,
        direction: config.direction as u8,
        mode: config.trans_mode as u8,
        crc: config.crc_flag as u8,
        large: config.file_flag as u8,
        segmentation_control: header.seg_ctrl() as u8,
        segment_metadata: header.seg_metadata_flag() as u8,
        data_length: header.pdu_datafield_len() as u16,
        source: field(config.source_id()),
        sequence: field(config.transaction_seq_num),
        destination: field(config.dest_id()),
    }
}

/// An error as 'err' and the words and numbers of its `Debug` form, no punctuation.
fn flat(error: &impl Debug) -> Refused {
    let text = format!("err {error:?}");
    let words = text.split(|c: char| !c.is_ascii_alphanumeric());
    Refused(
        words
            .filter(|w| !w.is_empty())
            .collect::<Vec<_>>()
            .join(" "),
    )
}

impl From<ByteConversionError> for Refused {
    fn from(error: ByteConversionError) -> Refused {
        Refused(match error {
            ByteConversionError::FromSliceTooSmall { found, expected } => {
                format!("err FromSliceTooSmall {found} {expected}")
            }
            ByteConversionError::ToSliceTooSmall { found, expected } => {
                format!("err ToSliceTooSmall {found} {expected}")
            }
        })
    }
}

impl From<PduError> for Refused {
    fn from(error: PduError) -> Refused {
        match error {
            PduError::ByteConversion(inner) => inner.into(),
            PduError::SourceDestIdLenMissmatch {
                src_id_len,
                dest_id_len,
            } => Refused(format!(
                "err SourceDestIdLenMissmatch {src_id_len} {dest_id_len}"
            )),
            PduError::WrongDirectiveType { found, expected } => {
                let found = found as u8;
                Refused(format!(
                    "err WrongDirectiveType {found} expected {expected:?}"
                ))
            }
            PduError::InvalidDirectiveType { found, expected } => {
                let expected = expected.map_or("none".to_string(), |code| format!("{code:?}"));
                Refused(format!(
                    "err InvalidDirectiveType {found} expected {expected}"
                ))
            }
            other => flat(&other),
        }
    }
}

impl From<InvalidAckedDirectiveCodeError> for Refused {
    fn from(error: InvalidAckedDirectiveCodeError) -> Refused {
        Refused(format!(
            "err InvalidAckedDirectiveCodeError {}",
            error.0 as u8
        ))
    }
}

macro_rules! by_debug {
    ($($error:ty),*) => {
        $(impl From<$error> for Refused {
            fn from(error: $error) -> Refused {
                flat(&error)
            }
        })*
    };
}

by_debug!(
    InvalidStartOrEndOfScopeError,
    TooSmallForPduHeaderError,
    TlvLvDataTooLargeError
);
