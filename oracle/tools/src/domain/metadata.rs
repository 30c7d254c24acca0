//! Where port and Rust are compared on a Metadata PDU (document 02, C-11).
use super::{Pdu, judge_directive, size_fits};
use crate::Record;
use crate::command::Metadata;

const CODE: u8 = 7;
const MAX_NAME: usize = 255;
const MAX_DATA: usize = 65_535;

/// The Rust's list of checksum types.
fn known(checksum_type: u8) -> bool {
    matches!(checksum_type, 0..=3 | 15)
}

/// Whatever both refuse alike before the directive is looked at, and of type 0 what declares a byte after
/// the file size: below that the Rust names another length, and before the directive. Of names and options
/// that run past E the Rust knows nothing: it reads a name beyond E or panics, and ends the walk.
pub fn reading(bytes: &[u8]) -> bool {
    let Some(pdu) = Pdu::whole(bytes) else {
        return true;
    };
    let names = 2 + pdu.offsets(1);
    if pdu.file_data || pdu.data.len() <= names {
        return false;
    }
    if pdu.data[0] != CODE || !known(pdu.data[1] & 15) {
        return true;
    }
    let options = after_field(1, &pdu.data[names..]).and_then(|rest| after_field(1, rest));
    options.is_some_and(uncut)
}

/// What follows a field with so many bytes in front of its value, of which the last is its length;
/// `None` where it is cut.
fn after_field(head: usize, bytes: &[u8]) -> Option<&[u8]> {
    let length = usize::from(*bytes.get(head - 1)?);
    bytes.get(head + length..)
}

/// Whether the bytes are whole options.
fn uncut(mut options: &[u8]) -> bool {
    while !options.is_empty() {
        match after_field(2, options) {
            None => return false,
            Some(rest) => options = rest,
        }
    }
    true
}

/// Of a valid record what the Rust's list has and the port does not refuse otherwise: on writing 30, 29, 25
/// and 32 are the port's own. 31 is the Rust's too.
pub fn writing(record: &Record, metadata: &Metadata) -> bool {
    judge_directive(record, || {
        let names = [&metadata.source_name, &metadata.destination_name];
        let lengths = names.map(|name| name.len());
        let size = if record.large == 1 { 8 } else { 4 };
        let around = 2 + size + 2 * usize::from(record.crc);
        let data = around + 2 + lengths[0] + lengths[1] + metadata.option_area.len();
        let long = lengths.iter().any(|length| *length > MAX_NAME);
        known(metadata.checksum_type)
            && size_fits(record.large, metadata.size)
            && (long || uncut(&metadata.option_area) && data <= MAX_DATA)
    })
}
