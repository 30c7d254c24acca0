//! The numbers that the library answers, taken apart: what was accepted, or the text of what was
//! refused.
use crate::ffi::{ANSWER_LEN, Answer, Header};
use tools::places::*;
use tools::{Field, Record, show};

/// The text of an answer; `Err` where the port refused.
pub type Said = Result<String, String>;

/// What stands in the caller's numbers before a call, so that one that is left as it was is seen.
pub const UNTOUCHED: u64 = 0xa5a5_a5a5_a5a5_a5a5;

/// How many numbers a refusal returns: document 01's table, then what document 02's requests add.
pub fn values(refusal: u64) -> Option<usize> {
    match refusal {
        2..=5 | 7 | 8 | 12 | 25 | 26 => Some(1),
        1 | 6 | 9..=11 | 13 | 14 | 18 => Some(2),
        15..=17 | 19..=24 | 27..=32 => Some(0),
        _ => None,
    }
}

/// The answer of a call that accepts, whose last number stands at that place. Every number after it must be 0, and
/// after a refusal's values.
pub fn ask(last: usize, call: impl FnOnce(&mut Answer)) -> Result<Answer, String> {
    let mut answer = [UNTOUCHED; ANSWER_LEN];
    call(&mut answer);
    let number = answer[ANSWER_NUMBER];
    let accepted = number == 0;
    let count = if accepted { Some(last) } else { values(number) };
    match count {
        Some(count) if answer[1 + count..].iter().all(|n| *n == 0) => match accepted {
            true => Ok(answer),
            false => Err(show::refused(&answer[..1 + count])),
        },
        _ => Err(stray(&answer)),
    }
}

/// The answer where the numbers are of no form that the library's header file gives.
pub fn stray(numbers: &[u64]) -> String {
    let words = numbers.iter().map(|n| format!(" {n}"));
    format!("stray{}", words.collect::<String>())
}

/// The header of an answer.
pub fn record_of(answer: &Answer) -> Result<Record, String> {
    let bit = |place: usize| match answer[place] {
        bit @ (0 | 1) => Ok(bit as u8),
        _ => Err(stray(answer)),
    };
    let field = |width: usize, value: usize| Field {
        width: answer[width],
        value: answer[value],
    };
    let data_length = answer[ANSWER_DATA_LENGTH].try_into();
    Ok(Record {
        pdu_type: bit(ANSWER_PDU_TYPE)?,
        direction: bit(ANSWER_DIRECTION)?,
        mode: bit(ANSWER_MODE)?,
        crc: bit(ANSWER_CRC)?,
        large: bit(ANSWER_LARGE)?,
        segmentation_control: bit(ANSWER_SEGMENTATION_CONTROL)?,
        segment_metadata: bit(ANSWER_SEGMENT_METADATA)?,
        data_length: data_length.map_err(|_| stray(answer))?,
        source: field(ANSWER_SOURCE_WIDTH, ANSWER_SOURCE),
        sequence: field(ANSWER_SEQUENCE_WIDTH, ANSWER_SEQUENCE),
        destination: field(ANSWER_DESTINATION_WIDTH, ANSWER_DESTINATION),
    })
}

/// A number as the library takes it, in one byte; a greater one is 'not made'.
pub fn in_byte(number: u64) -> Result<u8, String> {
    u8::try_from(number).map_err(|_| NOT_MADE.to_string())
}

/// The answer where the library's types hold no such value.
pub const NOT_MADE: &str = "not made";

/// A record as the library takes it, with widths of one byte each.
pub fn header_of(r: &Record) -> Result<Header, String> {
    let width = |f: &Field| in_byte(f.width);
    Ok(Header {
        shape: [
            r.pdu_type,
            r.direction,
            r.mode,
            r.crc,
            r.large,
            r.segmentation_control,
            r.segment_metadata,
            width(&r.source)?,
            width(&r.sequence)?,
            width(&r.destination)?,
        ],
        ids: [r.source.value, r.sequence.value, r.destination.value],
    })
}
