//! An EOF and an ACK read and written by both sides, into buffers of the same size.
use crate::header::{accepted, port_header, rust_header};
use crate::timing::row;
use port::ffi::{self, ANSWER_LEN, Ack, Answer, Eof};
use port::places::*;
use spacepackets::cfdp::pdu::FileDirectiveType;
use spacepackets::cfdp::pdu::ack::AckPdu;
use spacepackets::cfdp::pdu::eof::EofPdu;
use spacepackets::cfdp::tlv::EntityIdTlv;
use spacepackets::cfdp::{ConditionCode, TransactionStatus};
use spacepackets::util::UnsignedByteField;
use std::hint::black_box;

/// Of a file that was rejected, where there is a fault location.
pub fn eof(crc: bool, located: bool, about: &str) {
    let header = rust_header(crc);
    let (code, fault) = match located {
        false => (ConditionCode::NoError, None),
        true => (ConditionCode::FilestoreRejection, Some((1, 5))),
    };
    let condition = code as u8;
    let id = fault.map(|(width, value)| UnsignedByteField::new(usize::from(width), value));
    let (sum, size) = (0x1234_5678, 9_000_000);
    let by_rust = |buf: &mut [u8]| {
        let (header, code, sum, size, id) = black_box((header, code, sum, size, id));
        let pdu = EofPdu::new(header, code, sum, size, id.map(EntityIdTlv::new));
        pdu.write_to_slice(buf).expect("there is room")
    };
    let (shape, eof) = (
        port_header(crc),
        Eof {
            condition,
            file_checksum: sum,
            file_size: size,
            fault,
        },
    );
    let by_port = |buf: &mut [u8], a: &mut Answer| {
        ffi::eof_write(black_box(&shape), black_box(&eof), buf, a);
    };
    let bytes = written(&format!("write an EOF{about}"), by_rust, by_port);
    let rust = || EofPdu::from_bytes(black_box(&bytes)).expect("it was written");
    row(&format!("read an EOF{about}"), rust, || {
        asked(|a| ffi::eof_read(black_box(&bytes), a))
    });
}

pub fn ack(crc: bool, about: &str) {
    let header = rust_header(crc);
    let (of, code) = (FileDirectiveType::Eof, ConditionCode::NoError);
    let status = TransactionStatus::Active;
    let by_rust = |buf: &mut [u8]| {
        let (header, of, code, status) = black_box((header, of, code, status));
        let pdu = AckPdu::new(header, of, code, status).expect("an EOF is acknowledged");
        pdu.write_to_slice(buf).expect("there is room")
    };
    let (shape, ack) = (
        port_header(crc),
        Ack {
            directive: of as u8,
            condition: code as u8,
            status: status as u8,
        },
    );
    let by_port = |buf: &mut [u8], a: &mut Answer| {
        ffi::ack_write(black_box(&shape), black_box(&ack), buf, a);
    };
    let bytes = written(&format!("write an ACK{about}"), by_rust, by_port);
    let rust = || AckPdu::from_bytes(black_box(&bytes)).expect("it was written");
    row(&format!("read an ACK{about}"), rust, || {
        asked(|a| ffi::ack_read(black_box(&bytes), a))
    });
}

/// The library's answer to a call that it accepts.
pub fn asked(call: impl FnOnce(&mut Answer)) -> Answer {
    let mut answer = [0; ANSWER_LEN];
    call(&mut answer);
    accepted(&answer);
    answer
}

/// Times both writers, and hands back the bytes, which must be the same.
pub fn written(
    what: &str,
    rust: impl Fn(&mut [u8]) -> usize,
    port: impl Fn(&mut [u8], &mut Answer),
) -> Vec<u8> {
    let port = |buf: &mut [u8]| asked(|a| port(buf, a))[ANSWER_PDU_LENGTH] as usize;
    let (mut one, mut other) = (vec![0; 2_000], vec![0; 2_000]);
    let pdu_length = rust(&mut one);
    assert_eq!(pdu_length, port(&mut other));
    one.truncate(pdu_length);
    other.truncate(pdu_length);
    assert_eq!(one, other);
    row(
        what,
        || rust(black_box(&mut one)),
        || port(black_box(&mut other)),
    );
    assert_eq!(one, other);
    one
}
