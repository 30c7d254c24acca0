//! A NAK read and written by both sides, into buffers of the same size.
use crate::header::{accepted, port_header, rust_header};
use crate::timing::row;
use port::ffi::{self, ANSWER_LEN, Header};
use port::places::*;
use spacepackets::cfdp::pdu::PduHeader;
use spacepackets::cfdp::pdu::nak::{NakPduCreator, NakPduReader, SegmentRequests};
use std::hint::black_box;

const SCOPE: (u64, u64) = (0, 9_000_000);

/// A NAK as each side takes it, and as bytes.
pub struct Sample {
    rust: PduHeader,
    port: Header,
    /// Start and end by turns, as the port takes them, and in pairs, as the Rust does.
    numbers: Vec<u32>,
    pairs: Vec<(u32, u32)>,
    pub bytes: Vec<u8>,
}

impl Sample {
    pub fn new(count: u32, crc: bool) -> Sample {
        let pairs: Vec<(u32, u32)> = (0..count).map(|k| (1000 * k, 1000 * k + 500)).collect();
        let mut sample = Sample {
            rust: rust_header(crc),
            port: port_header(crc),
            numbers: pairs
                .iter()
                .flat_map(|(start, end)| [*start, *end])
                .collect(),
            pairs,
            bytes: vec![0; 16 + 8 * count as usize + 2 * usize::from(crc)],
        };
        sample.bytes = sample.written(Self::write_rust);
        assert_eq!(sample.bytes, sample.written(Self::write_port));
        sample
    }

    fn written(&self, write: impl Fn(&Self, &mut [u8]) -> usize) -> Vec<u8> {
        let mut buf = vec![0xee; self.bytes.len()];
        assert_eq!(write(self, &mut buf), buf.len());
        buf
    }

    /// A record that is made and written.
    fn write_rust(&self, buf: &mut [u8]) -> usize {
        let pairs = SegmentRequests::U32Pairs(black_box(&self.pairs));
        let header = *black_box(&self.rust);
        let nak = NakPduCreator::new(header, SCOPE.0, SCOPE.1, Some(pairs));
        let nak = nak.expect("the scope fits");
        nak.write_to_slice(black_box(buf)).expect("there is room")
    }

    fn write_port(&self, buf: &mut [u8]) -> usize {
        let mut answer = [0; ANSWER_LEN];
        let (header, numbers) = (black_box(&self.port), black_box(&self.numbers));
        ffi::nak_write_normal(header, SCOPE, numbers, black_box(buf), &mut answer);
        accepted(&answer);
        answer[ANSWER_PDU_LENGTH] as usize
    }

    pub fn write(&self, what: &str) {
        let (mut one, mut other) = (self.bytes.clone(), self.bytes.clone());
        row(
            what,
            || self.write_rust(&mut one),
            || self.write_port(&mut other),
        );
        assert_eq!(one, other);
    }

    pub fn read(&self, what: &str) {
        let (mut one, mut other) = (vec![0; self.numbers.len()], vec![1; self.numbers.len()]);
        let rust = || read_rust(black_box(&self.bytes), black_box(&mut one));
        let port = || read_port(black_box(&self.bytes), black_box(&mut other));
        row(what, rust, port);
        assert_eq!(one, other);
    }

    /// As a receiver reads that does not know yet how much will come.
    pub fn beginnings(&self, what: &str) {
        let bytes = black_box(&self.bytes[..]);
        let lengths = || (0..=bytes.len()).map(|length| black_box(&bytes[..length]));
        let rust = || lengths().filter(|b| NakPduReader::new(b).is_ok()).count();
        let port = || lengths().filter(|b| is_read(b)).count();
        assert_eq!((rust(), port()), (1, 1));
        row(what, rust, port);
    }
}

fn read_rust(bytes: &[u8], numbers: &mut [u64]) -> usize {
    let nak = NakPduReader::new(bytes).expect("it was written");
    let (places, _) = numbers.as_chunks_mut::<2>();
    let requests = nak.get_segment_requests_iterator().into_iter().flatten();
    let copied = places.iter_mut().zip(requests);
    copied
        .map(|(place, (start, end))| *place = [start, end])
        .count()
}

fn read_port(bytes: &[u8], numbers: &mut [u64]) -> usize {
    let mut answer = [0; ANSWER_LEN];
    ffi::nak_read(bytes, &mut answer);
    accepted(&answer);
    let area_start = answer[ANSWER_NAK_AREA_START] as usize;
    let area = &bytes[area_start..answer[ANSWER_NAK_DATA_END] as usize];
    ffi::nak_pairs(area, answer[ANSWER_LARGE] == 1, numbers)
}

fn is_read(bytes: &[u8]) -> bool {
    let mut answer = [0; ANSWER_LEN];
    ffi::nak_read(bytes, &mut answer);
    answer[ANSWER_NUMBER] == 0
}
