//! The library as it is linked: a safe function for each of its functions, with the same name less `cfdp_`, the
//! places of an answer by the names of `include/cfdp.h`, and all that is `unsafe`.
//!
//! No function of the library asks anything of its arguments but that they are what Rust's references are: a slice
//! goes over as its pointer and its length, an array as its pointer, and none is kept after the call.
#![allow(unsafe_code)]
use crate::{Ack, Eof, Header, Metadata, Missing, Only, Pair, PlannedNak, Refusal};
use core::mem::MaybeUninit;

pub(crate) const ANSWER_LEN: usize = 24;
pub(crate) const WINDOW_LEN: usize = 2048;
pub(crate) const MOST_OWED: usize = 256;
pub(crate) const OWED_LEN: usize = 516;
pub(crate) const OWED_COUNT: usize = 512;
pub(crate) type Answer = [u64; ANSWER_LEN];
type Answered = Result<Answer, Refusal>;

const NUMBER: usize = 0;
const FIRST: usize = 1;
const SECOND: usize = 2;
pub(crate) const VALUE: usize = 1;
pub(crate) const TYPE: usize = 1;
pub(crate) const DIRECTION: usize = 2;
pub(crate) const MODE: usize = 3;
pub(crate) const CRC: usize = 4;
pub(crate) const LARGE: usize = 5;
pub(crate) const CONTROL: usize = 6;
pub(crate) const METADATA: usize = 7;
pub(crate) const DATA_LENGTH: usize = 8;
pub(crate) const SOURCE_WIDTH: usize = 9;
pub(crate) const SOURCE: usize = 10;
pub(crate) const SEQUENCE_WIDTH: usize = 11;
pub(crate) const SEQUENCE: usize = 12;
pub(crate) const DESTINATION: usize = 14;
pub(crate) const HEADER_LENGTH: usize = 15;
pub(crate) const WRITTEN: usize = 15;
pub(crate) const NAK_START: usize = 15;
pub(crate) const NAK_END: usize = 16;
pub(crate) const NAK_AREA: usize = 17;
pub(crate) const NAK_STOP: usize = 18;
pub(crate) const NAK_PAIRS: usize = 19;
pub(crate) const RESERVED_PAIRS: usize = 15;
pub(crate) const RESERVED_AREA: usize = 16;
pub(crate) const RESERVED_STOP: usize = 17;
pub(crate) const RESERVED_LENGTH: usize = 18;
pub(crate) const EOF_CONDITION: usize = 15;
pub(crate) const EOF_FILE_CHECKSUM: usize = 16;
pub(crate) const EOF_FILE_SIZE: usize = 17;
pub(crate) const EOF_FAULT: usize = 18;
pub(crate) const EOF_FAULT_WIDTH: usize = 19;
pub(crate) const EOF_FAULT_VALUE: usize = 20;
pub(crate) const EOF_STOP: usize = 21;
pub(crate) const ACK_DIRECTIVE: usize = 15;
pub(crate) const ACK_CONDITION: usize = 16;
pub(crate) const ACK_STATUS: usize = 17;
pub(crate) const ACK_STOP: usize = 18;
pub(crate) const METADATA_CLOSURE: usize = 15;
pub(crate) const METADATA_CHECKSUM_TYPE: usize = 16;
pub(crate) const METADATA_FILE_SIZE: usize = 17;
// Where a part starts; where it stops stands behind it.
pub(crate) const METADATA_SOURCE: usize = 18;
pub(crate) const METADATA_DESTINATION: usize = 20;
pub(crate) const METADATA_OPTIONS: usize = 22;
pub(crate) const METADATA_STOP: usize = 23;
pub(crate) const OPTION_TYPE: usize = 1;
pub(crate) const OPTION_START: usize = 2;
pub(crate) const OPTION_STOP: usize = 3;
pub(crate) const OPTION_NEXT: usize = 4;
pub(crate) const DIFFER_METADATA_1: usize = 1;
pub(crate) const DIFFER_METADATA_2: usize = 2;
pub(crate) const DIFFER_RANGES: usize = 3;
const OWED_AT: usize = 3;

pub(crate) const PLAN_REQUESTS: usize = 1;
pub(crate) const PLAN_NAKS: usize = 2;

mod raw {
    use super::Answer;

    type Shape = *const [u8; 10];
    type Ids = *const [u64; 3];
    type Into = *mut Answer;

    #[rustfmt::skip]
    extern "C" {
        pub fn cfdp_checksum(bytes: *const u8, len: usize) -> u16;
        pub fn cfdp_header_read(bytes: *const u8, len: usize, answer: Into);
        pub fn cfdp_header_build(shape: Shape, data_length: u16, ids: Ids, answer: Into);
        pub fn cfdp_header_write(shape: Shape, data_length: u16, ids: Ids, buf: *mut u8, len: usize, answer: Into);
        pub fn cfdp_header_verify(shape: Shape, data_length: u16, ids: Ids, bytes: *const u8, len: usize, answer: Into);
        pub fn cfdp_nak_read(bytes: *const u8, len: usize, answer: Into);
        pub fn cfdp_nak_pair(area: *const u8, len: usize, large: bool, index: usize, pair: *mut [u64; 2]) -> bool;
        pub fn cfdp_nak_pairs(area: *const u8, len: usize, large: bool, numbers: *mut u64, room: usize) -> usize;
        pub fn cfdp_receive(window: *mut [u8; super::WINDOW_LEN], filled: *mut usize, fragment: *const u8, len: usize, answer: Into) -> usize;
        pub fn cfdp_nak_write(shape: Shape, ids: Ids, start: u64, end: u64, buf: *mut u8, len: usize, answer: Into);
        pub fn cfdp_nak_write_normal(shape: Shape, ids: Ids, start: u64, end: u64, numbers: *const u32, count: usize, buf: *mut u8, len: usize, answer: Into);
        pub fn cfdp_nak_write_large(shape: Shape, ids: Ids, start: u64, end: u64, numbers: *const u64, count: usize, buf: *mut u8, len: usize, answer: Into);
        pub fn cfdp_nak_reserve(shape: Shape, ids: Ids, pairs: usize, buf: *const u8, len: usize, answer: Into);
        pub fn cfdp_nak_finish(shape: Shape, ids: Ids, pairs: usize, start: u64, end: u64, buf: *mut u8, len: usize, answer: Into);
        pub fn cfdp_nak_most(shape: Shape, ids: Ids, packet: usize, answer: Into);
        pub fn cfdp_nak_compare(bytes: *const u8, len: usize, shape: Shape, ids: Ids, start: u64, end: u64, answer: Into);
        pub fn cfdp_nak_compare_normal(bytes: *const u8, len: usize, shape: Shape, ids: Ids, start: u64, end: u64, numbers: *const u32, count: usize, answer: Into);
        pub fn cfdp_nak_compare_large(bytes: *const u8, len: usize, shape: Shape, ids: Ids, start: u64, end: u64, numbers: *const u64, count: usize, answer: Into);
        pub fn cfdp_eof_read(bytes: *const u8, len: usize, answer: Into);
        pub fn cfdp_eof_write(shape: Shape, ids: Ids, condition: u8, file_checksum: u32, file_size: u64, fault: bool, fault_width: u8, fault_value: u64, buf: *mut u8, len: usize, answer: Into);
        pub fn cfdp_ack_read(bytes: *const u8, len: usize, answer: Into);
        pub fn cfdp_ack_write(shape: Shape, ids: Ids, directive: u8, condition: u8, status: u8, buf: *mut u8, len: usize, answer: Into);
        pub fn cfdp_metadata_read(bytes: *const u8, len: usize, answer: Into);
        pub fn cfdp_metadata_option(area: *const u8, len: usize, at: usize, answer: Into);
        pub fn cfdp_metadata_write(shape: Shape, ids: Ids, closure: bool, checksum_type: u8, file_size: u64, source: *const u8, source_len: usize, destination: *const u8, destination_len: usize, options: *const u8, options_len: usize, buf: *mut u8, len: usize, answer: Into);
        pub fn cfdp_owed_entry(bytes: *const u8, len: usize, at: usize, state: *mut [u64; super::OWED_LEN], answer: Into);
        pub fn cfdp_owed_run(log: *const u8, len: usize, from: usize, state: *mut [u64; super::OWED_LEN], answer: Into);
        pub fn cfdp_plan(shape: Shape, ids: Ids, packet: usize, received: *const u64, received_len: usize, start: u64, end: u64, requests: *mut u64, requests_len: usize, naks: *mut u64, naks_len: usize, answer: Into);
        pub fn cfdp_plan_check(shape: Shape, ids: Ids, packet: usize, received: *const u64, received_len: usize, start: u64, end: u64, requests: *const u64, requests_len: usize, naks: *const u64, naks_len: usize, answer: Into);
        pub fn cfdp_differ(first: *const u8, first_len: usize, second: *const u8, second_len: usize, ranges: *mut u64, ranges_len: usize, answer: Into);
    }
}

/// Why an answer is none.
#[inline(always)]
fn said(answer: &Answer) -> Result<(), Refusal> {
    match answer[NUMBER] {
        0 => Ok(()),
        number => Err(Refusal::from_numbers(number, answer[FIRST], answer[SECOND])),
    }
}

/// The answer of a call, or why it was refused.
#[inline(always)]
fn answered(call: impl FnOnce(*mut Answer)) -> Answered {
    let mut answer = MaybeUninit::uninit();
    call(answer.as_mut_ptr());
    // Every call writes all of its answer.
    let answer: Answer = unsafe { answer.assume_init() };
    said(&answer).map(|()| answer)
}

/// A header as the library takes it.
#[inline(always)]
fn numbers(header: &Header) -> ([u8; 10], [u64; 3]) {
    let shape = [
        header.file_data as u8,
        header.towards_sender as u8,
        header.unacknowledged as u8,
        header.crc as u8,
        header.large as u8,
        header.segmentation_control as u8,
        header.segment_metadata as u8,
        header.entity_width,
        header.sequence_width,
        header.entity_width,
    ];
    (
        shape,
        [header.source.0, header.sequence.0, header.destination.0],
    )
}

/// Pairs as numbers by turns, which is how they lie in memory: where, and how many.
#[inline(always)]
fn by_turns<T>(pairs: &[Pair<T>]) -> (*const T, usize) {
    (pairs.as_ptr().cast(), 2 * pairs.len())
}

/// The checksum of all bytes: x^16 + x^12 + x^5 + 1 from 0xFFFF; over a PDU that ends in its checksum it is 0.
pub fn checksum(bytes: &[u8]) -> u16 {
    unsafe { raw::cfdp_checksum(bytes.as_ptr(), bytes.len()) }
}

#[inline]
pub(crate) fn header_read(bytes: &[u8]) -> Answered {
    answered(|answer| unsafe { raw::cfdp_header_read(bytes.as_ptr(), bytes.len(), answer) })
}

pub(crate) fn header_build(header: &Header) -> Answered {
    let (shape, ids) = numbers(header);
    answered(|answer| unsafe { raw::cfdp_header_build(&shape, header.data_length, &ids, answer) })
}

pub(crate) fn header_write(header: &Header, buf: &mut [u8]) -> Answered {
    let (shape, ids) = numbers(header);
    let (at, len) = (buf.as_mut_ptr(), buf.len());
    answered(|answer| unsafe {
        raw::cfdp_header_write(&shape, header.data_length, &ids, at, len, answer)
    })
}

pub(crate) fn header_verify(header: &Header, bytes: &[u8]) -> Answered {
    let (shape, ids) = numbers(header);
    let (at, len) = (bytes.as_ptr(), bytes.len());
    answered(|answer| unsafe {
        raw::cfdp_header_verify(&shape, header.data_length, &ids, at, len, answer)
    })
}

#[inline]
pub(crate) fn nak_read(bytes: &[u8]) -> Answered {
    answered(|answer| unsafe { raw::cfdp_nak_read(bytes.as_ptr(), bytes.len(), answer) })
}

#[inline]
pub(crate) fn nak_pair(area: &[u8], large: bool, index: usize) -> Option<Pair> {
    let mut pair = [0; 2];
    let there = unsafe { raw::cfdp_nak_pair(area.as_ptr(), area.len(), large, index, &mut pair) };
    there.then_some(Pair {
        start: pair[0],
        end: pair[1],
    })
}

pub(crate) fn nak_pairs(area: &[u8], large: bool, pairs: &mut [Pair]) -> usize {
    let (to, room) = (pairs.as_mut_ptr().cast(), 2 * pairs.len());
    unsafe { raw::cfdp_nak_pairs(area.as_ptr(), area.len(), large, to, room) }
}

/// How many bytes were taken, and the answer.
pub(crate) fn receive(
    window: &mut [u8; WINDOW_LEN],
    filled: &mut usize,
    fragment: &[u8],
) -> (usize, Answered) {
    let mut taken = 0;
    let (at, len) = (fragment.as_ptr(), fragment.len());
    let answer =
        answered(|answer| taken = unsafe { raw::cfdp_receive(window, filled, at, len, answer) });
    (taken, answer)
}

pub(crate) fn nak_write(header: &Header, scope: Pair, buf: &mut [u8]) -> Answered {
    let (shape, ids) = numbers(header);
    let (at, len) = (buf.as_mut_ptr(), buf.len());
    answered(|answer| unsafe {
        raw::cfdp_nak_write(&shape, &ids, scope.start, scope.end, at, len, answer)
    })
}

#[inline]
pub(crate) fn nak_write_normal(
    header: &Header,
    scope: Pair,
    pairs: &[Pair<u32>],
    buf: &mut [u8],
) -> Answered {
    let ((shape, ids), (from, count)) = (numbers(header), by_turns(pairs));
    let (at, len) = (buf.as_mut_ptr(), buf.len());
    answered(|answer| unsafe {
        raw::cfdp_nak_write_normal(
            &shape,
            &ids,
            scope.start,
            scope.end,
            from,
            count,
            at,
            len,
            answer,
        )
    })
}

pub(crate) fn nak_write_large(
    header: &Header,
    scope: Pair,
    pairs: &[Pair],
    buf: &mut [u8],
) -> Answered {
    let ((shape, ids), (from, count)) = (numbers(header), by_turns(pairs));
    let (at, len) = (buf.as_mut_ptr(), buf.len());
    answered(|answer| unsafe {
        raw::cfdp_nak_write_large(
            &shape,
            &ids,
            scope.start,
            scope.end,
            from,
            count,
            at,
            len,
            answer,
        )
    })
}

pub(crate) fn nak_reserve(header: &Header, pairs: usize, buf: &[u8]) -> Answered {
    let (shape, ids) = numbers(header);
    answered(|answer| unsafe {
        raw::cfdp_nak_reserve(&shape, &ids, pairs, buf.as_ptr(), buf.len(), answer)
    })
}

pub(crate) fn nak_finish(header: &Header, pairs: usize, scope: Pair, buf: &mut [u8]) -> Answered {
    let (shape, ids) = numbers(header);
    let (at, len) = (buf.as_mut_ptr(), buf.len());
    answered(|answer| unsafe {
        raw::cfdp_nak_finish(&shape, &ids, pairs, scope.start, scope.end, at, len, answer)
    })
}

pub(crate) fn nak_most(header: &Header, packet: usize) -> Answered {
    let (shape, ids) = numbers(header);
    answered(|answer| unsafe { raw::cfdp_nak_most(&shape, &ids, packet, answer) })
}

pub(crate) fn nak_compare(bytes: &[u8], header: &Header, scope: Pair) -> Answered {
    let (shape, ids) = numbers(header);
    let (at, len) = (bytes.as_ptr(), bytes.len());
    answered(|answer| unsafe {
        raw::cfdp_nak_compare(at, len, &shape, &ids, scope.start, scope.end, answer)
    })
}

pub(crate) fn nak_compare_normal(
    bytes: &[u8],
    header: &Header,
    scope: Pair,
    pairs: &[Pair<u32>],
) -> Answered {
    let ((shape, ids), (from, count)) = (numbers(header), by_turns(pairs));
    let (at, len) = (bytes.as_ptr(), bytes.len());
    answered(|answer| unsafe {
        raw::cfdp_nak_compare_normal(
            at,
            len,
            &shape,
            &ids,
            scope.start,
            scope.end,
            from,
            count,
            answer,
        )
    })
}

pub(crate) fn nak_compare_large(
    bytes: &[u8],
    header: &Header,
    scope: Pair,
    pairs: &[Pair],
) -> Answered {
    let ((shape, ids), (from, count)) = (numbers(header), by_turns(pairs));
    let (at, len) = (bytes.as_ptr(), bytes.len());
    answered(|answer| unsafe {
        raw::cfdp_nak_compare_large(
            at,
            len,
            &shape,
            &ids,
            scope.start,
            scope.end,
            from,
            count,
            answer,
        )
    })
}

pub(crate) fn eof_read(bytes: &[u8]) -> Answered {
    answered(|answer| unsafe { raw::cfdp_eof_read(bytes.as_ptr(), bytes.len(), answer) })
}

pub(crate) fn eof_write(eof: &Eof, buf: &mut [u8]) -> Answered {
    let (shape, ids) = numbers(&eof.header);
    let (at, len) = (buf.as_mut_ptr(), buf.len());
    let (fault, width, entity) = eof
        .fault
        .map_or((false, 0, 0), |fault| (true, fault.width, fault.entity.0));
    let Eof {
        condition,
        file_checksum,
        file_size,
        ..
    } = *eof;
    answered(|answer| unsafe {
        raw::cfdp_eof_write(
            &shape,
            &ids,
            condition,
            file_checksum,
            file_size,
            fault,
            width,
            entity,
            at,
            len,
            answer,
        )
    })
}

pub(crate) fn ack_read(bytes: &[u8]) -> Answered {
    answered(|answer| unsafe { raw::cfdp_ack_read(bytes.as_ptr(), bytes.len(), answer) })
}

pub(crate) fn ack_write(ack: &Ack, buf: &mut [u8]) -> Answered {
    let (shape, ids) = numbers(&ack.header);
    let (at, len) = (buf.as_mut_ptr(), buf.len());
    let Ack {
        directive,
        condition,
        transaction_status,
        ..
    } = *ack;
    answered(|answer| unsafe {
        raw::cfdp_ack_write(
            &shape,
            &ids,
            directive,
            condition,
            transaction_status,
            at,
            len,
            answer,
        )
    })
}

pub(crate) fn differ(first: &[u8], second: &[u8], ranges: &mut [Only]) -> Answered {
    let (to, room) = (ranges.as_mut_ptr().cast(), 3 * ranges.len());
    answered(|answer| unsafe {
        raw::cfdp_differ(
            first.as_ptr(),
            first.len(),
            second.as_ptr(),
            second.len(),
            to,
            room,
            answer,
        )
    })
}

pub(crate) fn metadata_read(bytes: &[u8]) -> Answered {
    answered(|answer| unsafe { raw::cfdp_metadata_read(bytes.as_ptr(), bytes.len(), answer) })
}

pub(crate) fn metadata_option(area: &[u8], at: usize) -> Answered {
    answered(|answer| unsafe { raw::cfdp_metadata_option(area.as_ptr(), area.len(), at, answer) })
}

pub(crate) fn metadata_write(metadata: &Metadata, buf: &mut [u8]) -> Answered {
    let (shape, ids) = numbers(&metadata.header);
    let (closure, kind, size) = (metadata.closure, metadata.checksum_type, metadata.file_size);
    let (from, to, options) = (
        metadata.source_name,
        metadata.destination_name,
        metadata.option_area,
    );
    answered(|answer| unsafe {
        raw::cfdp_metadata_write(
            &shape,
            &ids,
            closure,
            kind,
            size,
            from.as_ptr(),
            from.len(),
            to.as_ptr(),
            to.len(),
            options.as_ptr(),
            options.len(),
            buf.as_mut_ptr(),
            buf.len(),
            answer,
        )
    })
}

pub(crate) fn owed_entry(bytes: &[u8], at: usize, state: &mut [u64; OWED_LEN]) -> Answered {
    answered(|answer| unsafe {
        raw::cfdp_owed_entry(bytes.as_ptr(), bytes.len(), at, state, answer)
    })
}

/// Where it stands, and why it was refused.
pub(crate) fn owed_run(
    log: &[u8],
    from: usize,
    state: &mut [u64; OWED_LEN],
) -> (usize, Result<(), Refusal>) {
    let mut answer = [0; ANSWER_LEN];
    unsafe { raw::cfdp_owed_run(log.as_ptr(), log.len(), from, state, &mut answer) };
    (answer[OWED_AT] as usize, said(&answer))
}

pub(crate) fn plan(missing: &Missing, requests: &mut [Pair], naks: &mut [PlannedNak]) -> Answered {
    let ((shape, ids), scope) = (numbers(missing.header), missing.scope);
    let (received, count) = by_turns(missing.received);
    answered(|answer| unsafe {
        raw::cfdp_plan(
            &shape,
            &ids,
            missing.packet,
            received,
            count,
            scope.start,
            scope.end,
            requests.as_mut_ptr().cast(),
            2 * requests.len(),
            naks.as_mut_ptr().cast(),
            3 * naks.len(),
            answer,
        )
    })
}

pub(crate) fn plan_check(missing: &Missing, requests: &[Pair], naks: &[PlannedNak]) -> Answered {
    let ((shape, ids), scope) = (numbers(missing.header), missing.scope);
    let (received, count) = by_turns(missing.received);
    let (requests, asked) = by_turns(requests);
    answered(|answer| unsafe {
        raw::cfdp_plan_check(
            &shape,
            &ids,
            missing.packet,
            received,
            count,
            scope.start,
            scope.end,
            requests,
            asked,
            naks.as_ptr().cast(),
            3 * naks.len(),
            answer,
        )
    })
}
