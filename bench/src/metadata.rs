//! A Metadata PDU read and written by both sides, into buffers of the same size.
use crate::directive::{asked, written};
use crate::header::{port_header, rust_header};
use crate::timing::row;
use port::ffi::{self, ANSWER_LEN, Answer, Metadata};
use port::places::*;
use spacepackets::cfdp::ChecksumType;
use spacepackets::cfdp::lv::Lv;
use spacepackets::cfdp::pdu::metadata::{
    MetadataGenericParams, MetadataPduCreator, MetadataPduReader,
};
use std::hint::black_box;

const SOURCE_NAME: &[u8] = b"/station/pass-0417/telemetry.bin";
const DESTINATION_NAME: &[u8] = b"/archive/telemetry.bin";
const SIZE: u64 = 9_000_000;

/// From one file to another, with so many options of 10 bytes; both sides walk them.
pub fn metadata(crc: bool, count: usize, about: &str) {
    let header = rust_header(crc);
    let options = [&[2, 8], b"pass0417".as_slice()].concat().repeat(count);
    let by_rust = |buf: &mut [u8]| {
        let (header, options) = black_box((header, &options[..]));
        let params = MetadataGenericParams::new(true, ChecksumType::Crc32, SIZE);
        let names = [SOURCE_NAME, DESTINATION_NAME];
        let [source, destination] = names.map(|name| Lv::new(name).expect("short"));
        let pdu = MetadataPduCreator::new(header, params, source, destination, options);
        pdu.write_to_slice(buf).expect("there is room")
    };
    let (shape, metadata) = (
        port_header(crc),
        Metadata {
            closure: true,
            checksum_type: 3,
            file_size: SIZE,
            source_name: SOURCE_NAME,
            destination_name: DESTINATION_NAME,
            option_area: &options,
        },
    );
    let by_port = |buf: &mut [u8], a: &mut Answer| {
        ffi::metadata_write(black_box(&shape), black_box(&metadata), buf, a);
    };
    let bytes = written(&format!("write a Metadata PDU{about}"), by_rust, by_port);
    let rust = || {
        let pdu = MetadataPduReader::new(black_box(&bytes)).expect("it was written");
        let options = pdu.options_iter().into_iter().flatten();
        options.fold(0, |sum, tlv| sum + tlv.value().len())
    };
    let port = || walked(black_box(&bytes));
    assert_eq!(rust(), port());
    row(&format!("read and walk a Metadata PDU{about}"), rust, port);
}

/// How many bytes the options' values have together.
fn walked(bytes: &[u8]) -> usize {
    let answer = asked(|a| ffi::metadata_read(bytes, a));
    let area_start = answer[ANSWER_METADATA_OPTION_AREA_START] as usize;
    let area = &bytes[area_start..answer[ANSWER_METADATA_DATA_END] as usize];
    let (mut at, mut sum) = (0, 0);
    loop {
        let mut option = [0; ANSWER_LEN];
        ffi::metadata_option(area, at, &mut option);
        let next = option[ANSWER_OPTION_NEXT] as usize;
        if next == 0 {
            return sum;
        }
        sum += (option[ANSWER_OPTION_VALUE_END] - option[ANSWER_OPTION_VALUE_START]) as usize;
        at = next;
    }
}
