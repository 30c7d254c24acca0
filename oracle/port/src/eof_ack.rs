//! The commands on EOFs and ACKs (C-01 of document 02), each asked of the port's library.
use crate::answer::{NOT_MADE, Said, ask, header_of, in_byte, record_of, stray};
use crate::base::written;
use crate::ffi;
use tools::command::{Ack, Eof};
use tools::make::header_len;
use tools::places::*;
use tools::{Field, Record, show};

/// E of a header. The protocol does not show it for these PDUs, so it is checked here.
pub fn data_end_of(record: &Record) -> u64 {
    let checksum = 2 * u64::from(record.crc);
    header_len(record) as u64 + u64::from(record.data_length) - checksum
}

pub fn eof(bytes: &[u8]) -> Said {
    let answer = ask(ANSWER_EOF_DATA_END, |a| ffi::eof_read(bytes, a))?;
    let record = record_of(&answer)?;
    let width = answer[ANSWER_EOF_FAULT_WIDTH];
    let value = answer[ANSWER_EOF_FAULT_VALUE];
    let fault = match [answer[ANSWER_EOF_FAULT], width, value] {
        [0, 0, 0] => None,
        [1, ..] => Some(Field { width, value }),
        _ => return Err(stray(&answer)),
    };
    let sum = u32::try_from(answer[ANSWER_EOF_FILE_CHECKSUM]).map_err(|_| stray(&answer))?;
    if answer[ANSWER_EOF_DATA_END] != data_end_of(&record) {
        return Err(stray(&answer));
    }
    let eof = Eof {
        code: answer[ANSWER_EOF_CONDITION],
        sum,
        size: answer[ANSWER_EOF_FILE_SIZE],
        fault,
    };
    Ok(show::eof(&record, &eof))
}

pub fn write_eof(record: &Record, eof: &Eof, buf: &mut [u8]) -> Said {
    let header = header_of(record)?;
    let fault = match &eof.fault {
        None => None,
        Some(field) => Some((in_byte(field.width)?, field.value)),
    };
    let eof = ffi::Eof {
        condition: in_byte(eof.code)?,
        file_checksum: eof.sum,
        file_size: eof.size,
        fault,
    };
    let answer = ask(ANSWER_PDU_LENGTH, |a| ffi::eof_write(&header, &eof, buf, a))?;
    written(&answer)
}

pub fn ack(bytes: &[u8]) -> Said {
    let answer = ask(ANSWER_ACK_DATA_END, |a| ffi::ack_read(bytes, a))?;
    let record = record_of(&answer)?;
    if answer[ANSWER_ACK_DATA_END] != data_end_of(&record) {
        return Err(stray(&answer));
    }
    let ack = Ack {
        directive: answer[ANSWER_ACK_DIRECTIVE],
        code: answer[ANSWER_ACK_CONDITION],
        status: answer[ANSWER_ACK_STATUS],
    };
    Ok(show::ack(&record, &ack))
}

/// The library takes every byte for a status, but has four.
pub fn write_ack(record: &Record, ack: &Ack, buf: &mut [u8]) -> Said {
    let header = header_of(record)?;
    if ack.status > 3 {
        return Err(NOT_MADE.to_string());
    }
    let ack = ffi::Ack {
        directive: in_byte(ack.directive)?,
        condition: in_byte(ack.code)?,
        status: ack.status as u8,
    };
    let answer = ask(ANSWER_PDU_LENGTH, |a| ffi::ack_write(&header, &ack, buf, a))?;
    written(&answer)
}
