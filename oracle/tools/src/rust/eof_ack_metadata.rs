//! The commands on EOFs, ACKs and Metadata PDUs (C-01 and C-11 of document 02), each one call of the Rust.
use super::{Answer, Refused, field, header_of, not_made, record_of};
use crate::command::{Ack, Eof, Metadata};
use crate::{Field, Record, show};
use spacepackets::cfdp::lv::Lv;
use spacepackets::cfdp::pdu::FileDirectiveType;
use spacepackets::cfdp::pdu::ack::AckPdu;
use spacepackets::cfdp::pdu::eof::EofPdu;
use spacepackets::cfdp::pdu::metadata::{
    MetadataGenericParams, MetadataPduCreator, MetadataPduReader,
};
use spacepackets::cfdp::tlv::EntityIdTlv;
use spacepackets::cfdp::{ChecksumType, ConditionCode, TransactionStatus};

/// A code as the Rust's enum has it.
fn known<T: TryFrom<u8>>(code: u64) -> Result<T, Refused> {
    let known = u8::try_from(code).ok().and_then(|c| T::try_from(c).ok());
    known.ok_or_else(not_made)
}

pub fn eof(bytes: &[u8]) -> Answer {
    let pdu = EofPdu::from_bytes(bytes)?;
    let eof = Eof {
        code: pdu.condition_code() as u64,
        sum: pdu.file_checksum(),
        size: pdu.file_size(),
        fault: fault_of(&pdu)?,
    };
    Ok(show::eof(&record_of(pdu.pdu_header()), &eof))
}

/// The fault location, which no function of the Rust shows: it is read off the PDU written anew,
/// where it stands between the file size and the checksum, as type, width and value.
fn fault_of(pdu: &EofPdu) -> Result<Option<Field>, Refused> {
    let record = record_of(pdu.pdu_header());
    let anew = pdu.to_vec()?;
    let from = pdu.pdu_header().header_len() + if record.large == 1 { 14 } else { 10 };
    let to = anew.len() - if record.crc == 1 { 2 } else { 0 };
    Ok(match &anew[from..to] {
        [] => None,
        tlv => Some(Field {
            width: u64::from(tlv[1]),
            value: tlv[2..].iter().fold(0, |v, b| v << 8 | u64::from(*b)),
        }),
    })
}

pub fn write_eof(record: &Record, eof: &Eof, buf: &mut [u8]) -> Answer {
    let header = header_of(record)?;
    let code: ConditionCode = known(eof.code)?;
    let fault = eof.fault.as_ref().map(|f| EntityIdTlv::new(field(f)));
    let pdu = EofPdu::new(header, code, eof.sum, eof.size, fault);
    let pdu_length = pdu.write_to_slice(buf)?;
    Ok(show::written(&record_of(pdu.pdu_header()), pdu_length))
}

pub fn ack(bytes: &[u8]) -> Answer {
    let pdu = AckPdu::from_bytes(bytes)?;
    let ack = Ack {
        directive: pdu.directive_code_of_acked_pdu() as u64,
        code: pdu.condition_code() as u64,
        status: pdu.transaction_status() as u64,
    };
    Ok(show::ack(&record_of(pdu.pdu_header()), &ack))
}

pub fn write_ack(record: &Record, ack: &Ack, buf: &mut [u8]) -> Answer {
    let header = header_of(record)?;
    let directive: FileDirectiveType = known(ack.directive)?;
    let code: ConditionCode = known(ack.code)?;
    let status: TransactionStatus = known(ack.status)?;
    let pdu = AckPdu::new(header, directive, code, status)?;
    let pdu_length = pdu.write_to_slice(buf)?;
    Ok(show::written(&record_of(pdu.pdu_header()), pdu_length))
}

pub fn metadata(bytes: &[u8]) -> Answer {
    let pdu = MetadataPduReader::new(bytes)?;
    let params = pdu.metadata_params();
    let metadata = Metadata {
        closure: params.closure_requested as u8,
        checksum_type: params.checksum_type as u8,
        size: params.file_size,
        source_name: pdu.src_file_name().value().to_vec(),
        destination_name: pdu.dest_file_name().value().to_vec(),
        option_area: pdu.options().to_vec(),
    };
    let options = pdu.options_iter().into_iter().flatten();
    let walked: Vec<_> = options
        .map(|tlv| (u8::from(tlv.tlv_type_field()), tlv.value().to_vec()))
        .collect();
    Ok(show::metadata(
        &record_of(pdu.pdu_header()),
        &metadata,
        &walked,
    ))
}

pub fn write_metadata(record: &Record, metadata: &Metadata, buf: &mut [u8]) -> Answer {
    let header = header_of(record)?;
    let checksum_type: ChecksumType = known(metadata.checksum_type.into())?;
    let params = MetadataGenericParams::new(metadata.closure == 1, checksum_type, metadata.size);
    let source = Lv::new(&metadata.source_name)?;
    let destination = Lv::new(&metadata.destination_name)?;
    let pdu = MetadataPduCreator::new(header, params, source, destination, &metadata.option_area);
    let pdu_length = pdu.write_to_slice(buf)?;
    Ok(show::written(&record_of(pdu.pdu_header()), pdu_length))
}
