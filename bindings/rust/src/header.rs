//! The header of a PDU.
use crate::ffi::{self, Answer};
use crate::Refusal;

/// The number of an entity; it is none of a transaction.
#[derive(Clone, Copy, Debug, Default, PartialEq, Eq, PartialOrd, Ord, Hash)]
pub struct EntityId(pub u64);

/// The number of a transaction of its source; it is none of an entity.
#[derive(Clone, Copy, Debug, Default, PartialEq, Eq, PartialOrd, Ord, Hash)]
pub struct TransactionSeqNum(pub u64);

/// A header. It has one width for both entities, so that refusal 13 cannot be.
#[derive(Clone, Copy, Debug, Default, PartialEq, Eq, Hash)]
pub struct Header {
    /// File data, or else a directive.
    pub file_data: bool,
    /// Towards the file's sender, or else its receiver; worked out for a PDU that is written.
    pub towards_sender: bool,
    /// Unacknowledged mode, or else acknowledged.
    pub unacknowledged: bool,
    /// The PDU ends in a checksum.
    pub crc: bool,
    /// Offsets and sizes have 8 bytes, or else 4.
    pub large: bool,
    /// Record boundaries are kept.
    pub segmentation_control: bool,
    /// Segments have metadata.
    pub segment_metadata: bool,
    /// 1, 2, 4 or 8 bytes, of source and destination.
    pub entity_width: u8,
    /// 1, 2, 4 or 8 bytes, of the sequence number.
    pub sequence_width: u8,
    /// Bytes of data; worked out for a PDU that is written.
    pub data_length: u16,
    /// The entity that sends the file.
    pub source: EntityId,
    /// Of the transaction.
    pub sequence: TransactionSeqNum,
    /// The entity that receives the file.
    pub destination: EntityId,
}

/// What was written: the header as it stands in the PDU, and how many bytes.
#[derive(Clone, Copy, Debug, PartialEq, Eq, Hash)]
pub struct Written {
    /// With direction, length and file flag as they were worked out.
    pub header: Header,
    /// How many bytes, P.
    pub length: usize,
}

impl Header {
    #[inline]
    pub(crate) fn of(answer: &Answer) -> Header {
        Header {
            file_data: answer[ffi::TYPE] != 0,
            towards_sender: answer[ffi::DIRECTION] != 0,
            unacknowledged: answer[ffi::MODE] != 0,
            crc: answer[ffi::CRC] != 0,
            large: answer[ffi::LARGE] != 0,
            segmentation_control: answer[ffi::CONTROL] != 0,
            segment_metadata: answer[ffi::METADATA] != 0,
            data_length: answer[ffi::DATA_LENGTH] as u16,
            entity_width: answer[ffi::SOURCE_WIDTH] as u8,
            source: EntityId(answer[ffi::SOURCE]),
            sequence_width: answer[ffi::SEQUENCE_WIDTH] as u8,
            sequence: TransactionSeqNum(answer[ffi::SEQUENCE]),
            destination: EntityId(answer[ffi::DESTINATION]),
        }
    }

    /// Reads a header at the front of the bytes: the header, and the length of its PDU, P.
    pub fn read(bytes: &[u8]) -> Result<(Header, usize), Refusal> {
        let answer = ffi::header_read(bytes)?;
        let pdu_length = answer[ffi::HEADER_LENGTH] + answer[ffi::DATA_LENGTH];
        Ok((Header::of(&answer), pdu_length as usize))
    }

    /// Whether there is such a header.
    pub fn judge(&self) -> Result<(), Refusal> {
        ffi::header_build(self).map(|_| ())
    }

    /// Writes the header, with its own `data_length`: how many bytes.
    pub fn write(&self, buf: &mut [u8]) -> Result<usize, Refusal> {
        Ok(ffi::header_write(self, buf)?[ffi::VALUE] as usize)
    }

    /// Whether the header's whole PDU is there, and its checksum right: where its data stops, E.
    pub fn verify(&self, bytes: &[u8]) -> Result<usize, Refusal> {
        Ok(ffi::header_verify(self, bytes)?[ffi::VALUE] as usize)
    }

    /// P of a PDU whose data stops at E: the checksum stands between.
    pub(crate) fn behind(&self, data_end: usize) -> usize {
        data_end + if self.crc { 2 } else { 0 }
    }
}

impl Written {
    #[inline]
    pub(crate) fn of(answer: &Answer) -> Written {
        Written {
            header: Header::of(answer),
            length: answer[ffi::WRITTEN] as usize,
        }
    }
}
