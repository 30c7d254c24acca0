//! The Metadata PDU: read and its options walked, and written.
use crate::ffi;
use crate::{Header, Refusal, Written};

/// A Metadata PDU that was read or is to be written.
#[derive(Clone, Copy, Debug, Default, PartialEq, Eq)]
pub struct Metadata<'a> {
    /// As it stands in the bytes; of a PDU that is to be written, direction and length are worked out.
    pub header: Header,
    /// Whether the sender asks for a Finished PDU.
    pub closure: bool,
    /// 0, 1, 2, 3 or 15.
    pub checksum_type: u8,
    /// In bytes.
    pub file_size: u64,
    /// The file's name at the source: bytes, of no encoding.
    pub source_name: &'a [u8],
    /// The file's name at the destination, likewise.
    pub destination_name: &'a [u8],
    /// The bytes of the options: type, length and value of each.
    pub option_area: &'a [u8],
    /// E, where the data stops; not looked at when it is written.
    pub data_end: usize,
    /// P, where the next PDU starts; likewise.
    pub pdu_length: usize,
}

impl<'a> Metadata<'a> {
    /// Reads a Metadata PDU at the front of the bytes, whatever follows it.
    pub fn read(bytes: &'a [u8]) -> Result<Metadata<'a>, Refusal> {
        let answer = ffi::metadata_read(bytes)?;
        let header = Header::of(&answer);
        let part = |start: usize| &bytes[answer[start] as usize..answer[start + 1] as usize];
        let data_end = answer[ffi::METADATA_STOP] as usize;
        Ok(Metadata {
            header,
            closure: answer[ffi::METADATA_CLOSURE] != 0,
            checksum_type: answer[ffi::METADATA_CHECKSUM_TYPE] as u8,
            file_size: answer[ffi::METADATA_FILE_SIZE],
            source_name: part(ffi::METADATA_SOURCE),
            destination_name: part(ffi::METADATA_DESTINATION),
            option_area: part(ffi::METADATA_OPTIONS),
            data_end,
            pdu_length: header.behind(data_end),
        })
    }

    /// Writes it to the front of `buf`.
    pub fn write(&self, buf: &mut [u8]) -> Result<Written, Refusal> {
        ffi::metadata_write(self, buf).map(|answer| Written::of(&answer))
    }

    /// Its options, in their order; those of a PDU that was read are whole.
    pub fn options(&self) -> Options<'a> {
        Options::new(self.option_area)
    }
}

/// An option of a Metadata PDU.
#[derive(Clone, Copy, Debug, PartialEq, Eq)]
#[allow(missing_docs)]
pub struct MetadataOption<'a> {
    pub kind: u8,
    pub value: &'a [u8],
}

/// A walk over an area of options. One that runs past the area's end is refused, and ends it.
#[derive(Clone, Debug)]
pub struct Options<'a> {
    area: &'a [u8],
    at: usize,
}

impl<'a> Options<'a> {
    /// From the area's start.
    pub fn new(area: &'a [u8]) -> Options<'a> {
        Options { area, at: 0 }
    }
}

impl<'a> Iterator for Options<'a> {
    type Item = Result<MetadataOption<'a>, Refusal>;

    fn next(&mut self) -> Option<Self::Item> {
        let answer = ffi::metadata_option(self.area, self.at);
        let next = answer.map_or(0, |answer| answer[ffi::OPTION_NEXT] as usize);
        // At the end there is no next place, and behind a cut option nothing.
        self.at = if next == 0 { self.area.len() } else { next };
        match answer {
            Ok(_) if next == 0 => None,
            Ok(answer) => Some(Ok(MetadataOption {
                kind: answer[ffi::OPTION_TYPE] as u8,
                value: &self.area
                    [answer[ffi::OPTION_START] as usize..answer[ffi::OPTION_STOP] as usize],
            })),
            Err(refusal) => Some(Err(refusal)),
        }
    }
}

impl core::iter::FusedIterator for Options<'_> {}
