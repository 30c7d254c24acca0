//! The commands on Metadata PDUs (C-11 of document 02), each asked of the port's library.
use crate::answer::{Said, ask, header_of, record_of, stray};
use crate::base::written;
use crate::eof_ack::data_end_of;
use crate::ffi::{self, ANSWER_LEN, Answer};
use tools::command::Metadata;
use tools::places::*;
use tools::{Record, show};

pub fn metadata(bytes: &[u8]) -> Said {
    let answer = ask(ANSWER_METADATA_DATA_END, |a| ffi::metadata_read(bytes, a))?;
    let record = record_of(&answer)?;
    let source_end = answer[ANSWER_METADATA_SOURCE_NAME_END];
    let destination_start = answer[ANSWER_METADATA_DESTINATION_NAME_START];
    let destination_end = answer[ANSWER_METADATA_DESTINATION_NAME_END];
    let area_start = answer[ANSWER_METADATA_OPTION_AREA_START];
    let data_end = answer[ANSWER_METADATA_DATA_END];
    let part = |start: u64, end: u64| bytes.get(start as usize..end as usize);
    let parts = [
        part(answer[ANSWER_METADATA_SOURCE_NAME_START], source_end),
        part(destination_start, destination_end),
        part(area_start, data_end),
    ];
    let [Some(source_name), Some(destination_name), Some(option_area)] = parts else {
        return Err(stray(&answer));
    };
    // The names stand one after the other, each after its length, and the options up to E.
    let joined = source_end + 1 == destination_start
        && destination_end == area_start
        && data_end == data_end_of(&record);
    let closure = answer[ANSWER_METADATA_CLOSURE];
    let checksum_type = answer[ANSWER_METADATA_CHECKSUM_TYPE];
    if !joined || closure > 1 || checksum_type > 255 {
        return Err(stray(&answer));
    }
    let metadata = Metadata {
        closure: closure as u8,
        checksum_type: checksum_type as u8,
        size: answer[ANSWER_METADATA_FILE_SIZE],
        source_name: source_name.to_vec(),
        destination_name: destination_name.to_vec(),
        option_area: option_area.to_vec(),
    };
    Ok(show::metadata(&record, &metadata, &walked(option_area)?))
}

/// Type and value of each option, and then the end, also beyond it.
fn walked(area: &[u8]) -> Result<Vec<(u8, Vec<u8>)>, String> {
    let mut shown = Vec::new();
    let mut at = 0;
    loop {
        let answer = option_at(area, at)?;
        if answer == [0; ANSWER_LEN] {
            break;
        }
        let (start, end) = (
            answer[ANSWER_OPTION_VALUE_START],
            answer[ANSWER_OPTION_VALUE_END],
        );
        let value = area.get(start as usize..end as usize);
        let option_type = u8::try_from(answer[ANSWER_OPTION_TYPE]);
        let next = answer[ANSWER_OPTION_NEXT];
        let (Some(value), Ok(option_type), true) = (value, option_type, end == next) else {
            return Err(stray(&answer));
        };
        shown.push((option_type, value.to_vec()));
        at = next as usize;
    }
    for beyond in [area.len(), area.len() + 1, usize::MAX] {
        let answer = option_at(area, beyond)?;
        if answer != [0; ANSWER_LEN] || at != area.len() {
            return Err(stray(&answer));
        }
    }
    Ok(shown)
}

fn option_at(area: &[u8], at: usize) -> Result<Answer, String> {
    ask(ANSWER_OPTION_NEXT, |a| ffi::metadata_option(area, at, a))
}

pub fn write_metadata(record: &Record, metadata: &Metadata, buf: &mut [u8]) -> Said {
    let header = header_of(record)?;
    let metadata = ffi::Metadata {
        closure: metadata.closure == 1,
        checksum_type: metadata.checksum_type,
        file_size: metadata.size,
        source_name: &metadata.source_name,
        destination_name: &metadata.destination_name,
        option_area: &metadata.option_area,
    };
    let answer = ask(ANSWER_PDU_LENGTH, |a| {
        ffi::metadata_write(&header, &metadata, buf, a)
    })?;
    written(&answer)
}
