//! The ACK: read and written.
use crate::ffi;
use crate::{Header, Refusal, Written};

/// An ACK that was read or is to be written.
#[derive(Clone, Copy, Debug, Default, PartialEq, Eq, Hash)]
pub struct Ack {
    /// As it stands in the bytes; of an ACK that is to be written, direction and length are worked out.
    pub header: Header,
    /// What it acknowledges: 4 is EOF, 5 Finished.
    pub directive: u8,
    /// The condition code.
    pub condition: u8,
    /// 0 undefined, 1 active, 2 terminated, 3 unrecognized.
    pub transaction_status: u8,
    /// E, where the data stops; not looked at when it is written.
    pub data_end: usize,
    /// P, where the next PDU starts; likewise.
    pub pdu_length: usize,
}

impl Ack {
    /// Reads an ACK at the front of the bytes, whatever follows it.
    pub fn read(bytes: &[u8]) -> Result<Ack, Refusal> {
        let answer = ffi::ack_read(bytes)?;
        let header = Header::of(&answer);
        let data_end = answer[ffi::ACK_STOP] as usize;
        Ok(Ack {
            header,
            directive: answer[ffi::ACK_DIRECTIVE] as u8,
            condition: answer[ffi::ACK_CONDITION] as u8,
            transaction_status: answer[ffi::ACK_STATUS] as u8,
            data_end,
            pdu_length: header.behind(data_end),
        })
    }

    /// Writes it to the front of `buf`.
    pub fn write(&self, buf: &mut [u8]) -> Result<Written, Refusal> {
        ffi::ack_write(self, buf).map(|answer| Written::of(&answer))
    }
}
