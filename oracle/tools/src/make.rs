//! What the makers of command lists share: numbers by chance, records, and PDUs as bytes.
use crate::command::{Ack, Eof, Metadata, Nak};
use crate::domain::checksum;
use crate::{Field, List, Record, Scope};

/// The same numbers for the same seed, on every machine.
pub struct Random(pub u64);

impl Random {
    /// One step of splitmix64.
    pub fn number(&mut self) -> u64 {
        self.0 = self.0.wrapping_add(0x9e37_79b9_7f4a_7c15);
        let z = (self.0 ^ (self.0 >> 30)).wrapping_mul(0xbf58_476d_1ce4_e5b9);
        let z = (z ^ (z >> 27)).wrapping_mul(0x94d0_49bb_1331_11eb);
        z ^ (z >> 31)
    }

    pub fn below(&mut self, bound: u64) -> u64 {
        self.number() % bound
    }

    pub fn bit(&mut self) -> u8 {
        self.below(2) as u8
    }

    pub fn one_of<T: Copy>(&mut self, choices: &[T]) -> T {
        choices[self.below(choices.len() as u64) as usize]
    }

    pub fn bytes(&mut self, count: usize) -> Vec<u8> {
        (0..count).map(|_| self.number() as u8).collect()
    }

    /// A number below 2^bits, often one of the least or the greatest.
    pub fn edge(&mut self, bits: u32) -> u64 {
        let greatest = u64::MAX >> (64 - bits);
        match self.below(4) {
            0 => self.below(3).min(greatest),
            1 => greatest - self.below(2),
            _ => self.number() & greatest,
        }
    }

    /// A valid record, its data field length by chance; one in eight is of file data, which is compared
    /// least.
    pub fn record(&mut self) -> Record {
        let entity = self.one_of(&WIDTHS);
        let sequence = self.one_of(&WIDTHS);
        Record {
            pdu_type: u8::from(self.below(8) == 0),
            direction: self.bit(),
            mode: self.bit(),
            crc: self.bit(),
            large: self.bit(),
            segmentation_control: self.bit(),
            segment_metadata: self.bit(),
            data_length: self.number() as u16,
            source: self.field(entity),
            sequence: self.field(sequence),
            destination: self.field(entity),
        }
    }

    pub fn field(&mut self, width: u64) -> Field {
        let value = self.edge(8 * width as u32);
        Field { width, value }
    }

    /// A NAK of that many pairs, of the kind that the record's flag names.
    pub fn nak(&mut self, record: Record, pairs: usize) -> Nak {
        let bits = if record.large == 1 { 64 } else { 32 };
        let numbers = (0..2 * pairs).map(|_| self.edge(bits));
        let list = match record.large {
            1 => List::Large(numbers.collect()),
            _ => List::Normal(numbers.map(|n| n as u32).collect()),
        };
        let (start, end) = (self.edge(bits), self.edge(bits));
        let scope = Scope { start, end };
        Nak {
            record,
            scope,
            list,
        }
    }

    /// A good EOF but for its code, with a file size that the record's flag has room for.
    pub fn eof(&mut self, record: &Record) -> Eof {
        let width = self.one_of(&WIDTHS);
        let fault = self.field(width);
        Eof {
            code: self.below(16),
            sum: self.edge(32) as u32,
            size: self.edge(8 * size_len(record) as u32),
            fault: (self.bit() == 1).then_some(fault),
        }
    }

    /// A good Metadata PDU, with a file size that the record's flag has room for; one in four has long names.
    pub fn metadata(&mut self, record: &Record) -> Metadata {
        let longest = if self.below(4) == 0 { 255 } else { 8 };
        let [source_name, destination_name] = [(); 2].map(|()| self.name(longest));
        let count = self.below(4);
        Metadata {
            closure: self.bit(),
            checksum_type: self.one_of(&CHECKSUM_TYPES),
            size: self.edge(8 * size_len(record) as u32),
            source_name,
            destination_name,
            option_area: (0..count).flat_map(|_| self.option(6)).collect(),
        }
    }

    /// A name of at most so many bytes, often none or as many.
    pub fn name(&mut self, longest: u64) -> Vec<u8> {
        let length = match self.below(4) {
            0 => 0,
            1 => longest,
            _ => self.below(longest + 1),
        };
        self.bytes(length as usize)
    }

    /// An option, its value of at most so many bytes.
    pub fn option(&mut self, longest: u64) -> Vec<u8> {
        let value = self.name(longest);
        let option_type = self.one_of(&[0, 1, 2, 4, 5, 6, 0xaa]);
        [&[option_type, value.len() as u8], &value[..]].concat()
    }

    /// A good ACK but for its code.
    pub fn ack(&mut self) -> Ack {
        Ack {
            directive: self.one_of(&[4, 5]),
            code: self.below(16),
            status: self.below(4),
        }
    }
}

pub const WIDTHS: [u64; 4] = [1, 2, 4, 8];

/// The Rust's list.
pub const CHECKSUM_TYPES: [u8; 5] = [0, 1, 2, 3, 15];

/// h
pub fn header_len(record: &Record) -> usize {
    4 + (record.source.width + record.sequence.width + record.destination.width) as usize
}

/// F
pub fn pair_size(record: &Record) -> usize {
    if record.large == 1 { 16 } else { 8 }
}

/// The bytes of a file size.
pub fn size_len(record: &Record) -> usize {
    pair_size(record) / 2
}

/// P of a NAK of that many pairs.
pub fn nak_len(record: &Record, pairs: usize) -> usize {
    header_len(record) + 1 + pair_size(record) * (1 + pairs) + 2 * usize::from(record.crc)
}

/// The bytes of a valid record's header.
pub fn header(record: &Record) -> Vec<u8> {
    let r = record;
    let mut bytes = vec![
        1 << 5 | r.pdu_type << 4 | r.direction << 3 | r.mode << 2 | r.crc << 1 | r.large,
        (r.data_length >> 8) as u8,
        r.data_length as u8,
        r.segmentation_control << 7
            | (r.source.width as u8 - 1) << 4
            | r.segment_metadata << 3
            | (r.sequence.width as u8 - 1),
    ];
    for field in [r.source, r.sequence, r.destination] {
        bytes.extend_from_slice(&field.value.to_be_bytes()[8 - field.width as usize..]);
    }
    bytes
}

/// The PDU of a valid record whose data field, less any checksum, is `data`.
pub fn pdu(mut record: Record, data: &[u8]) -> Vec<u8> {
    record.data_length = (data.len() + 2 * usize::from(record.crc)) as u16;
    let mut bytes = header(&record);
    bytes.extend_from_slice(data);
    if record.crc == 1 {
        bytes.extend_from_slice(&checksum(&bytes).to_be_bytes());
    }
    bytes
}

/// What follows the header in a NAK whose list is of its record's kind, less any checksum.
pub fn nak_data(nak: &Nak) -> Vec<u8> {
    let scope = [nak.scope.start, nak.scope.end];
    let pairs: Vec<u64> = match &nak.list {
        List::None => Vec::new(),
        List::Normal(numbers) => numbers.iter().map(|n| u64::from(*n)).collect(),
        List::Large(numbers) => numbers.clone(),
    };
    let from = 8 - pair_size(&nak.record) / 2;
    let numbers = scope.iter().chain(&pairs);
    let bytes = numbers.flat_map(|n| n.to_be_bytes().into_iter().skip(from));
    std::iter::once(8).chain(bytes).collect()
}

/// What follows the header in an EOF, less any checksum.
pub fn eof_data(record: &Record, eof: &Eof) -> Vec<u8> {
    let mut data = vec![4, (eof.code << 4) as u8];
    data.extend(eof.sum.to_be_bytes());
    data.extend(&eof.size.to_be_bytes()[8 - size_len(record)..]);
    if let Some(fault) = eof.fault {
        data.extend([6, fault.width as u8]);
        data.extend(&fault.value.to_be_bytes()[8 - fault.width as usize..]);
    }
    data
}

/// What follows the header in an ACK, less any checksum.
pub fn ack_data(ack: &Ack) -> Vec<u8> {
    let subtype = u8::from(ack.directive == 5);
    let of = (ack.directive << 4) as u8 | subtype;
    vec![6, of, (ack.code << 4 | ack.status) as u8]
}

/// What follows the header in a Metadata PDU whose names have at most 255 bytes, less any checksum.
pub fn metadata_data(record: &Record, metadata: &Metadata) -> Vec<u8> {
    let mut data = vec![7, metadata.closure << 6 | metadata.checksum_type];
    data.extend(&metadata.size.to_be_bytes()[8 - size_len(record)..]);
    for name in [&metadata.source_name, &metadata.destination_name] {
        data.push(name.len() as u8);
        data.extend(name);
    }
    data.extend(&metadata.option_area);
    data
}

/// The record's direction as the writer of such an ACK sets it.
pub fn ack_record(record: Record, ack: &Ack) -> Record {
    let direction = u8::from(ack.directive == 4);
    Record {
        direction,
        ..record
    }
}

/// Puts a good checksum at the end of the PDU that the buffer declares, if it holds one.
pub fn seal(bytes: &mut [u8]) {
    let &mut [first, high, low, widths, ..] = bytes else {
        return;
    };
    let header_length = 4 + 2 * (usize::from(widths >> 4 & 7) + 1) + usize::from(widths & 7) + 1;
    let pdu_length = header_length + usize::from(u16::from_be_bytes([high, low]));
    if first >> 1 & 1 == 1 && pdu_length <= bytes.len() {
        let sum = checksum(&bytes[..pdu_length - 2]);
        bytes[pdu_length - 2..pdu_length].copy_from_slice(&sum.to_be_bytes());
    }
}
