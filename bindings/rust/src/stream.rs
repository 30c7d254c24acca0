//! A stream cut into its PDUs, by P alone.
use crate::{Header, Refusal};

/// The next PDU of a stream, which is cut off its front, whatever its reader will say of it. Refused with
/// `FromSliceTooSmall`, it is not all there; refused otherwise, where it ends cannot be known. A refusal leaves
/// the stream as it was.
pub fn next_pdu<'a>(stream: &mut &'a [u8]) -> Result<&'a [u8], Refusal> {
    let (_, pdu_length) = Header::read(stream)?;
    let found = stream.len();
    let whole = stream.split_at_checked(pdu_length);
    let (pdu, rest) = whole.ok_or(Refusal::FromSliceTooSmall {
        found,
        expected: pdu_length,
    })?;
    *stream = rest;
    Ok(pdu)
}

/// The PDUs of a stream, as long as whole ones are there.
#[derive(Clone, Copy, Debug)]
pub struct Pdus<'a> {
    /// What is not given yet; `next_pdu` says of it why there is no further PDU.
    pub rest: &'a [u8],
}

impl<'a> Iterator for Pdus<'a> {
    type Item = &'a [u8];

    fn next(&mut self) -> Option<&'a [u8]> {
        next_pdu(&mut self.rest).ok()
    }
}
