//! The EOF: read and written.
use crate::ffi;
use crate::{EntityId, Header, Refusal, Written};

/// An EOF that was read or is to be written.
#[derive(Clone, Copy, Debug, Default, PartialEq, Eq, Hash)]
pub struct Eof {
    /// As it stands in the bytes; of an EOF that is to be written, direction and length are worked out.
    pub header: Header,
    /// The condition code.
    pub condition: u8,
    /// The file's, and not the PDU's.
    pub file_checksum: u32,
    /// In bytes.
    pub file_size: u64,
    /// Where there is one.
    pub fault: Option<FaultLocation>,
    /// E, where the data stops; not looked at when it is written.
    pub data_end: usize,
    /// P, where the next PDU starts; likewise.
    pub pdu_length: usize,
}

/// The entity at which a transfer was cancelled.
#[derive(Clone, Copy, Debug, PartialEq, Eq, Hash)]
pub struct FaultLocation {
    /// 1, 2, 4 or 8 bytes.
    pub width: u8,
    /// Its number.
    pub entity: EntityId,
}

impl Eof {
    /// Reads an EOF at the front of the bytes, whatever follows it.
    pub fn read(bytes: &[u8]) -> Result<Eof, Refusal> {
        let answer = ffi::eof_read(bytes)?;
        let header = Header::of(&answer);
        let data_end = answer[ffi::EOF_STOP] as usize;
        let fault = FaultLocation {
            width: answer[ffi::EOF_FAULT_WIDTH] as u8,
            entity: EntityId(answer[ffi::EOF_FAULT_VALUE]),
        };
        Ok(Eof {
            header,
            condition: answer[ffi::EOF_CONDITION] as u8,
            file_checksum: answer[ffi::EOF_FILE_CHECKSUM] as u32,
            file_size: answer[ffi::EOF_FILE_SIZE],
            fault: (answer[ffi::EOF_FAULT] != 0).then_some(fault),
            data_end,
            pdu_length: header.behind(data_end),
        })
    }

    /// Writes it to the front of `buf`.
    pub fn write(&self, buf: &mut [u8]) -> Result<Written, Refusal> {
        ffi::eof_write(self, buf).map(|answer| Written::of(&answer))
    }
}
