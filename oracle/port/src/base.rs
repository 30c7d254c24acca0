//! The commands of the base, each asked of the port's library.
use crate::answer::{Said, UNTOUCHED, ask, header_of, record_of, stray};
use crate::ffi::{self, Answer, Header};
use tools::command::Nak;
use tools::places::*;
use tools::show::{self, Reading, Reserved};
use tools::{List, Record, Scope};

pub fn crc(bytes: &[u8]) -> Said {
    Ok(show::number(ffi::checksum(bytes)))
}

pub fn header(bytes: &[u8]) -> Said {
    let answer = ask(ANSWER_HEADER_LENGTH, |a| ffi::header_read(bytes, a))?;
    let header_length = answer[ANSWER_HEADER_LENGTH] as usize;
    Ok(show::header(&record_of(&answer)?, header_length))
}

pub fn build(record: &Record) -> Said {
    let header = header_of(record)?;
    let answer = ask(ANSWER_DESTINATION, |a| {
        ffi::header_build(&header, record.data_length, a)
    })?;
    Ok(show::record(&record_of(&answer)?))
}

pub fn verify(record: &Record, bytes: &[u8]) -> Said {
    let header = header_of(record)?;
    let answer = ask(ANSWER_VALUE, |a| {
        ffi::header_verify(&header, record.data_length, bytes, a)
    })?;
    Ok(show::number(answer[ANSWER_VALUE]))
}

pub fn write_header(record: &Record, buf: &mut [u8]) -> Said {
    let header = header_of(record)?;
    let answer = ask(ANSWER_VALUE, |a| {
        ffi::header_write(&header, record.data_length, buf, a)
    })?;
    Ok(show::number(answer[ANSWER_VALUE]))
}

pub fn most_requests(record: &Record, size: usize) -> Said {
    let header = header_of(record)?;
    let answer = ask(ANSWER_VALUE, |a| ffi::nak_most(&header, size, a))?;
    Ok(show::number(answer[ANSWER_VALUE]))
}

pub fn read(bytes: &[u8]) -> Said {
    shown(&ask(ANSWER_NAK_PAIRS, |a| ffi::nak_read(bytes, a))?, bytes)
}

/// The NAK of an answer, with its requests in the bytes that it was read from.
pub fn shown(answer: &Answer, bytes: &[u8]) -> Said {
    let record = record_of(answer)?;
    let area_start = answer[ANSWER_NAK_AREA_START] as usize;
    let data_end = answer[ANSWER_NAK_DATA_END] as usize;
    let area = bytes.get(area_start..data_end);
    let requests = requests(area.ok_or_else(|| stray(answer))?, record.large == 1)?;
    Ok(show::reading(&Reading {
        record,
        scope: Scope {
            start: answer[ANSWER_NAK_SCOPE_START],
            end: answer[ANSWER_NAK_SCOPE_END],
        },
        count: answer[ANSWER_NAK_PAIRS] as usize,
        data_end,
        requests,
    }))
}

/// The pairs of an area, by both of the library's forms, which must agree; an empty area has none.
fn requests(area: &[u8], large: bool) -> Result<Option<Vec<(u64, u64)>>, String> {
    if area.is_empty() {
        return Ok(None);
    }
    let pairs = copied(area, large, area.len() / 4 + 3)?;
    let each = (0..pairs.len()).map(|index| pair_at(area, large, index));
    let by_index = each.eq(pairs.iter().map(|pair| (true, *pair)));
    let beyond = [pairs.len(), usize::MAX].map(|index| pair_at(area, large, index));
    // An array for half of the pairs, and perhaps for half of one more: only whole pairs are copied.
    let fewer = copied(area, large, pairs.len())?;
    if by_index && beyond == [(false, (0, 0)); 2] && fewer == pairs[..pairs.len() / 2] {
        Ok(Some(pairs))
    } else {
        Err("err forms differ".to_string())
    }
}

/// What is copied of an area's pairs into that many numbers. The others must stay as they were.
fn copied(area: &[u8], large: bool, room: usize) -> Result<Vec<(u64, u64)>, String> {
    let mut numbers = vec![UNTOUCHED; room];
    let count = ffi::nak_pairs(area, large, &mut numbers);
    let rest = numbers.get(2 * count..);
    if !rest.is_some_and(|rest| rest.iter().all(|n| *n == UNTOUCHED)) {
        return Err(stray(&numbers));
    }
    numbers.truncate(2 * count);
    let (pairs, _) = numbers.as_chunks::<2>();
    Ok(pairs.iter().map(|[start, end]| (*start, *end)).collect())
}

fn pair_at(area: &[u8], large: bool, index: usize) -> (bool, (u64, u64)) {
    let mut pair = [UNTOUCHED; 2];
    let found = ffi::nak_pair(area, large, index, &mut pair);
    (found, pair.into())
}

pub fn write(nak: &Nak, buf: &mut [u8]) -> Said {
    let header = header_of(&nak.record)?;
    let scope = (nak.scope.start, nak.scope.end);
    let answer = ask(ANSWER_PDU_LENGTH, |a| match &nak.list {
        List::None => ffi::nak_write(&header, scope, buf, a),
        List::Normal(numbers) => ffi::nak_write_normal(&header, scope, numbers, buf, a),
        List::Large(numbers) => ffi::nak_write_large(&header, scope, numbers, buf, a),
    })?;
    written(&answer)
}

/// What every writer of a PDU hands back.
pub fn written(answer: &Answer) -> Said {
    let pdu_length = answer[ANSWER_PDU_LENGTH] as usize;
    Ok(show::written(&record_of(answer)?, pdu_length))
}

pub fn reserve(record: &Record, count: usize, buf: &[u8]) -> Said {
    Ok(show::reserved(&reserved(&header_of(record)?, count, buf)?))
}

fn reserved(header: &Header, count: usize, buf: &[u8]) -> Result<Reserved, String> {
    let answer = ask(ANSWER_RESERVED_PDU_LENGTH, |a| {
        ffi::nak_reserve(header, count, buf, a)
    })?;
    let area_start = answer[ANSWER_RESERVED_AREA_START] as usize;
    let data_end = answer[ANSWER_RESERVED_DATA_END] as usize;
    if answer[ANSWER_RESERVED_PAIRS] != count as u64 || data_end < area_start {
        return Err(stray(&answer));
    }
    Ok(Reserved {
        record: record_of(&answer)?,
        pdu_length: answer[ANSWER_RESERVED_PDU_LENGTH] as usize,
        area_start,
        area_length: data_end - area_start,
    })
}

/// Finishing judges record and buffer anew, so a refusal is that of finishing.
pub fn finish(record: &Record, count: usize, scope: &Scope, buf: &mut [u8]) -> Said {
    let header = header_of(record)?;
    let before = reserved(&header, count, buf);
    let scope = (scope.start, scope.end);
    let answer = ask(ANSWER_PDU_LENGTH, |a| {
        ffi::nak_finish(&header, count, scope, buf, a)
    })?;
    let before = before?;
    if before.record != record_of(&answer)? {
        return Err(stray(&answer));
    }
    let pdu_length = answer[ANSWER_PDU_LENGTH] as usize;
    Ok(show::finished(&before, pdu_length))
}

pub fn compare(bytes: &[u8], nak: &Nak) -> Said {
    let scope = (nak.scope.start, nak.scope.end);
    let header = header_of(&nak.record)?;
    let answer = ask(ANSWER_VALUE, |a| match &nak.list {
        List::None => ffi::nak_compare(bytes, &header, scope, a),
        List::Normal(numbers) => ffi::nak_compare_normal(bytes, &header, scope, numbers, a),
        List::Large(numbers) => ffi::nak_compare_large(bytes, &header, scope, numbers, a),
    })?;
    match answer[ANSWER_VALUE] {
        equal @ (0 | 1) => Ok(show::comparison(equal == 1)),
        _ => Err(stray(&answer)),
    }
}
