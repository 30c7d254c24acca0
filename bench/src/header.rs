//! The header that all samples have, as each side takes it: identifiers of one byte, normal file size.
use port::ffi::{Answer, Header};
use port::places::*;
use spacepackets::cfdp::pdu::{CommonPduConfig, PduHeader};
use spacepackets::cfdp::{CrcFlag, Direction, LargeFileFlag, TransmissionMode};
use spacepackets::util::UnsignedByteField;

pub fn port_header(crc: bool) -> Header {
    Header {
        shape: [0, 1, 0, u8::from(crc), 0, 0, 0, 1, 1, 1],
        ids: [1, 2, 3],
    }
}

pub fn rust_header(crc: bool) -> PduHeader {
    let id = |value| UnsignedByteField::new(1, value);
    let config = CommonPduConfig::new(
        id(1),
        id(3),
        id(2),
        TransmissionMode::Acknowledged,
        LargeFileFlag::Normal,
        if crc {
            CrcFlag::WithCrc
        } else {
            CrcFlag::NoCrc
        },
        Direction::TowardsSender,
    );
    PduHeader::new_for_file_directive(config.expect("the widths are equal"), 0)
}

pub fn accepted(answer: &Answer) {
    assert_eq!(answer[ANSWER_NUMBER], 0, "refused {answer:?}");
}
