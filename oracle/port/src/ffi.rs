//! The port's library as it is linked: one safe function for each function of its header file, with
//! the same name less `cfdp_`, and all that is `unsafe`.
//!
//! No function of the library has a precondition, so each is safe for every argument: a slice goes
//! over as its pointer and its length, an array as its pointer, and none is kept after the call.

/// How many numbers an answer has: 0 for accepted or document 01's number, then its values, the rest 0.
pub const ANSWER_LEN: usize = 24;
pub type Answer = [u64; ANSWER_LEN];

/// A receiver's window.
pub const WINDOW_LEN: usize = 2048;
pub type Window = [u8; WINDOW_LEN];

/// The state of a log, which the caller keeps.
pub const OWED_LEN: usize = 516;
pub type Owed = [u64; OWED_LEN];
/// Where the count of ranges stands in it.
pub const OWED_COUNT: usize = 512;

pub const SHAPE_LEN: usize = 10;
pub const IDS_LEN: usize = 3;

/// A header without its length: `shape` has seven flags and three widths, `ids` the three values,
/// both in the order source, sequence number, destination.
#[derive(Clone, Copy, Debug, Default, PartialEq, Eq)]
pub struct Header {
    pub shape: [u8; SHAPE_LEN],
    pub ids: [u64; IDS_LEN],
}

/// Start and end of scope.
pub type Scope = (u64, u64);

/// What an EOF says beside its header; width and value of the fault location, where there is one.
#[derive(Default)]
pub struct Eof {
    pub condition: u8,
    pub file_checksum: u32,
    pub file_size: u64,
    pub fault: Option<(u8, u64)>,
}

/// What an ACK says beside its header.
#[derive(Default)]
pub struct Ack {
    pub directive: u8,
    pub condition: u8,
    pub status: u8,
}

/// What a Metadata PDU says beside its header.
#[derive(Default)]
pub struct Metadata<'a> {
    pub closure: bool,
    pub checksum_type: u8,
    pub file_size: u64,
    pub source_name: &'a [u8],
    pub destination_name: &'a [u8],
    pub option_area: &'a [u8],
}

mod raw {
    use super::{Answer, IDS_LEN, Owed, SHAPE_LEN, Window};

    type Shape = *const [u8; SHAPE_LEN];
    type Ids = *const [u64; IDS_LEN];
    type Into = *mut Answer;

    #[rustfmt::skip]
    unsafe extern "C" {
        pub fn cfdp_checksum(bytes: *const u8, len: usize) -> u16;
        pub fn cfdp_header_read(bytes: *const u8, len: usize, answer: Into);
        pub fn cfdp_header_build(shape: Shape, data_length: u16, ids: Ids, answer: Into);
        pub fn cfdp_header_write(shape: Shape, data_length: u16, ids: Ids, buf: *mut u8, len: usize, answer: Into);
        pub fn cfdp_header_verify(shape: Shape, data_length: u16, ids: Ids, bytes: *const u8, len: usize, answer: Into);
        pub fn cfdp_nak_read(bytes: *const u8, len: usize, answer: Into);
        pub fn cfdp_nak_pair(area: *const u8, len: usize, large: bool, index: usize, pair: *mut [u64; 2]) -> bool;
        pub fn cfdp_nak_pairs(area: *const u8, len: usize, large: bool, numbers: *mut u64, room: usize) -> usize;
        pub fn cfdp_receive(window: *mut Window, filled: *mut usize, fragment: *const u8, len: usize, answer: Into) -> usize;
        pub fn cfdp_nak_write(shape: Shape, ids: Ids, scope_start: u64, scope_end: u64, buf: *mut u8, len: usize, answer: Into);
        pub fn cfdp_nak_write_normal(shape: Shape, ids: Ids, scope_start: u64, scope_end: u64, numbers: *const u32, count: usize, buf: *mut u8, len: usize, answer: Into);
        pub fn cfdp_nak_write_large(shape: Shape, ids: Ids, scope_start: u64, scope_end: u64, numbers: *const u64, count: usize, buf: *mut u8, len: usize, answer: Into);
        pub fn cfdp_nak_reserve(shape: Shape, ids: Ids, pairs: usize, buf: *const u8, len: usize, answer: Into);
        pub fn cfdp_nak_finish(shape: Shape, ids: Ids, pairs: usize, scope_start: u64, scope_end: u64, buf: *mut u8, len: usize, answer: Into);
        pub fn cfdp_nak_most(shape: Shape, ids: Ids, packet: usize, answer: Into);
        pub fn cfdp_nak_compare(bytes: *const u8, len: usize, shape: Shape, ids: Ids, scope_start: u64, scope_end: u64, answer: Into);
        pub fn cfdp_nak_compare_normal(bytes: *const u8, len: usize, shape: Shape, ids: Ids, scope_start: u64, scope_end: u64, numbers: *const u32, count: usize, answer: Into);
        pub fn cfdp_nak_compare_large(bytes: *const u8, len: usize, shape: Shape, ids: Ids, scope_start: u64, scope_end: u64, numbers: *const u64, count: usize, answer: Into);
        pub fn cfdp_differ(first: *const u8, first_len: usize, second: *const u8, second_len: usize, ranges: *mut u64, ranges_len: usize, answer: Into);
        pub fn cfdp_eof_read(bytes: *const u8, len: usize, answer: Into);
        pub fn cfdp_eof_write(shape: Shape, ids: Ids, condition: u8, file_checksum: u32, file_size: u64, fault: bool, fault_width: u8, fault_value: u64, buf: *mut u8, len: usize, answer: Into);
        pub fn cfdp_ack_read(bytes: *const u8, len: usize, answer: Into);
        pub fn cfdp_plan_check(shape: Shape, ids: Ids, packet: usize, received: *const u64, received_len: usize, scope_start: u64, scope_end: u64, requests: *const u64, requests_len: usize, naks: *const u64, naks_len: usize, answer: Into);
        pub fn cfdp_plan(shape: Shape, ids: Ids, packet: usize, received: *const u64, received_len: usize, scope_start: u64, scope_end: u64, requests: *mut u64, requests_len: usize, naks: *mut u64, naks_len: usize, answer: Into);
        pub fn cfdp_ack_write(shape: Shape, ids: Ids, directive: u8, condition: u8, status: u8, buf: *mut u8, len: usize, answer: Into);
        pub fn cfdp_metadata_read(bytes: *const u8, len: usize, answer: Into);
        pub fn cfdp_metadata_option(area: *const u8, len: usize, at: usize, answer: Into);
        pub fn cfdp_metadata_write(shape: Shape, ids: Ids, closure: bool, checksum_type: u8, file_size: u64, source_name: *const u8, source_name_len: usize, destination_name: *const u8, destination_name_len: usize, option_area: *const u8, option_area_len: usize, buf: *mut u8, len: usize, answer: Into);
        pub fn cfdp_owed_entry(bytes: *const u8, len: usize, at: usize, state: *mut Owed, answer: Into);
        pub fn cfdp_owed_run(log: *const u8, len: usize, from: usize, state: *mut Owed, answer: Into);
    }
}

pub fn checksum(bytes: &[u8]) -> u16 {
    unsafe { raw::cfdp_checksum(bytes.as_ptr(), bytes.len()) }
}

/// REC, h
pub fn header_read(bytes: &[u8], answer: &mut Answer) {
    unsafe { raw::cfdp_header_read(bytes.as_ptr(), bytes.len(), answer) }
}

/// REC
pub fn header_build(header: &Header, data_length: u16, answer: &mut Answer) {
    unsafe { raw::cfdp_header_build(&header.shape, data_length, &header.ids, answer) }
}

/// h
pub fn header_write(header: &Header, data_length: u16, buf: &mut [u8], answer: &mut Answer) {
    let Header { shape, ids } = header;
    let (at, len) = (buf.as_mut_ptr(), buf.len());
    unsafe { raw::cfdp_header_write(shape, data_length, ids, at, len, answer) }
}

/// E
pub fn header_verify(header: &Header, data_length: u16, bytes: &[u8], answer: &mut Answer) {
    let Header { shape, ids } = header;
    let (at, len) = (bytes.as_ptr(), bytes.len());
    unsafe { raw::cfdp_header_verify(shape, data_length, ids, at, len, answer) }
}

/// REC, start and end of scope, where the request area starts, E, pairs
pub fn nak_read(bytes: &[u8], answer: &mut Answer) {
    unsafe { raw::cfdp_nak_read(bytes.as_ptr(), bytes.len(), answer) }
}

/// Whether the area has that whole pair, and the pair.
pub fn nak_pair(area: &[u8], large: bool, index: usize, pair: &mut [u64; 2]) -> bool {
    unsafe { raw::cfdp_nak_pair(area.as_ptr(), area.len(), large, index, pair) }
}

/// How many whole pairs were copied: as many as both hold.
pub fn nak_pairs(area: &[u8], large: bool, numbers: &mut [u64]) -> usize {
    let (to, room) = (numbers.as_mut_ptr(), numbers.len());
    unsafe { raw::cfdp_nak_pairs(area.as_ptr(), area.len(), large, to, room) }
}

/// How many bytes of the fragment were taken. 1 for more wanted; else as of `nak_read`.
pub fn receive(
    window: &mut Window,
    filled: &mut usize,
    fragment: &[u8],
    answer: &mut Answer,
) -> usize {
    let (at, len) = (fragment.as_ptr(), fragment.len());
    unsafe { raw::cfdp_receive(window, filled, at, len, answer) }
}

/// REC, P
pub fn nak_write(header: &Header, scope: Scope, buf: &mut [u8], answer: &mut Answer) {
    let (Header { shape, ids }, (start, end)) = (header, scope);
    let (at, len) = (buf.as_mut_ptr(), buf.len());
    unsafe { raw::cfdp_nak_write(shape, ids, start, end, at, len, answer) }
}

/// REC, P
pub fn nak_write_normal(
    header: &Header,
    scope: Scope,
    numbers: &[u32],
    buf: &mut [u8],
    answer: &mut Answer,
) {
    let (Header { shape, ids }, (start, end)) = (header, scope);
    let (from, count) = (numbers.as_ptr(), numbers.len());
    let (at, len) = (buf.as_mut_ptr(), buf.len());
    unsafe { raw::cfdp_nak_write_normal(shape, ids, start, end, from, count, at, len, answer) }
}

/// REC, P
pub fn nak_write_large(
    header: &Header,
    scope: Scope,
    numbers: &[u64],
    buf: &mut [u8],
    answer: &mut Answer,
) {
    let (Header { shape, ids }, (start, end)) = (header, scope);
    let (from, count) = (numbers.as_ptr(), numbers.len());
    let (at, len) = (buf.as_mut_ptr(), buf.len());
    unsafe { raw::cfdp_nak_write_large(shape, ids, start, end, from, count, at, len, answer) }
}

/// REC, pairs, where the request area starts, E, P
pub fn nak_reserve(header: &Header, pairs: usize, buf: &[u8], answer: &mut Answer) {
    let Header { shape, ids } = header;
    unsafe { raw::cfdp_nak_reserve(shape, ids, pairs, buf.as_ptr(), buf.len(), answer) }
}

/// REC, P
pub fn nak_finish(
    header: &Header,
    pairs: usize,
    scope: Scope,
    buf: &mut [u8],
    answer: &mut Answer,
) {
    let (Header { shape, ids }, (start, end)) = (header, scope);
    let (at, len) = (buf.as_mut_ptr(), buf.len());
    unsafe { raw::cfdp_nak_finish(shape, ids, pairs, start, end, at, len, answer) }
}

/// Most requests: pairs
pub fn nak_most(header: &Header, packet: usize, answer: &mut Answer) {
    unsafe { raw::cfdp_nak_most(&header.shape, &header.ids, packet, answer) }
}

/// 1 for equal, 0 for different
pub fn nak_compare(bytes: &[u8], header: &Header, scope: Scope, answer: &mut Answer) {
    let (Header { shape, ids }, (start, end)) = (header, scope);
    let (at, len) = (bytes.as_ptr(), bytes.len());
    unsafe { raw::cfdp_nak_compare(at, len, shape, ids, start, end, answer) }
}

/// 1 for equal, 0 for different
pub fn nak_compare_normal(
    bytes: &[u8],
    header: &Header,
    scope: Scope,
    numbers: &[u32],
    answer: &mut Answer,
) {
    let (Header { shape, ids }, (start, end)) = (header, scope);
    let (at, len) = (bytes.as_ptr(), bytes.len());
    let (from, count) = (numbers.as_ptr(), numbers.len());
    unsafe { raw::cfdp_nak_compare_normal(at, len, shape, ids, start, end, from, count, answer) }
}

/// 1 for equal, 0 for different
pub fn nak_compare_large(
    bytes: &[u8],
    header: &Header,
    scope: Scope,
    numbers: &[u64],
    answer: &mut Answer,
) {
    let (Header { shape, ids }, (start, end)) = (header, scope);
    let (at, len) = (bytes.as_ptr(), bytes.len());
    let (from, count) = (numbers.as_ptr(), numbers.len());
    unsafe { raw::cfdp_nak_compare_large(at, len, shape, ids, start, end, from, count, answer) }
}

/// REC, condition code, file checksum, file size, whether there is a fault location, its width, its
/// value, E
pub fn eof_read(bytes: &[u8], answer: &mut Answer) {
    unsafe { raw::cfdp_eof_read(bytes.as_ptr(), bytes.len(), answer) }
}

/// REC, P
pub fn eof_write(header: &Header, eof: &Eof, buf: &mut [u8], answer: &mut Answer) {
    let Header { shape, ids } = header;
    let &Eof {
        condition,
        file_checksum: sum,
        file_size: size,
        fault,
    } = eof;
    let there = fault.is_some();
    let (width, value) = fault.unwrap_or((0, 0));
    let (at, len) = (buf.as_mut_ptr(), buf.len());
    unsafe {
        raw::cfdp_eof_write(
            shape, ids, condition, sum, size, there, width, value, at, len, answer,
        )
    }
}

/// REC, acknowledged directive, condition code, transaction status, E
pub fn ack_read(bytes: &[u8], answer: &mut Answer) {
    unsafe { raw::cfdp_ack_read(bytes.as_ptr(), bytes.len(), answer) }
}

/// REC, P
pub fn ack_write(header: &Header, ack: &Ack, buf: &mut [u8], answer: &mut Answer) {
    let Header { shape, ids } = header;
    let &Ack {
        directive: of,
        condition,
        status,
    } = ack;
    let (at, len) = (buf.as_mut_ptr(), buf.len());
    unsafe { raw::cfdp_ack_write(shape, ids, of, condition, status, at, len, answer) }
}

/// REC, closure requested, checksum type, file size, start and end of both names and of the option area
pub fn metadata_read(bytes: &[u8], answer: &mut Answer) {
    unsafe { raw::cfdp_metadata_read(bytes.as_ptr(), bytes.len(), answer) }
}

/// Type, start and end of the value, where the next option begins; zeros at the end
pub fn metadata_option(area: &[u8], at: usize, answer: &mut Answer) {
    unsafe { raw::cfdp_metadata_option(area.as_ptr(), area.len(), at, answer) }
}

/// REC, P
pub fn metadata_write(header: &Header, metadata: &Metadata, buf: &mut [u8], answer: &mut Answer) {
    let Header { shape, ids } = header;
    let &Metadata {
        closure,
        checksum_type,
        file_size: size,
        source_name: from,
        destination_name: to,
        option_area: area,
    } = metadata;
    let [from, to, area] = [from, to, area].map(|part| (part.as_ptr(), part.len()));
    let (at, len) = (buf.as_mut_ptr(), buf.len());
    unsafe {
        raw::cfdp_metadata_write(
            shape,
            ids,
            closure,
            checksum_type,
            size,
            from.0,
            from.1,
            to.0,
            to.1,
            area.0,
            area.1,
            at,
            len,
            answer,
        )
    }
}

/// whether each asks for metadata, ranges
pub fn differ(first: &[u8], second: &[u8], ranges: &mut [u64], answer: &mut Answer) {
    let (one, two) = (
        (first.as_ptr(), first.len()),
        (second.as_ptr(), second.len()),
    );
    let (at, len) = (ranges.as_mut_ptr(), ranges.len());
    unsafe { raw::cfdp_differ(one.0, one.1, two.0, two.1, at, len, answer) }
}

/// the entry's length
pub fn owed_entry(bytes: &[u8], at: usize, state: &mut Owed, answer: &mut Answer) {
    unsafe { raw::cfdp_owed_entry(bytes.as_ptr(), bytes.len(), at, state, answer) }
}

/// where the run stands, after a refusal's values
pub fn owed_run(log: &[u8], from: usize, state: &mut Owed, answer: &mut Answer) {
    unsafe { raw::cfdp_owed_run(log.as_ptr(), log.len(), from, state, answer) }
}

/// What NAKs are planned for.
#[derive(Default)]
pub struct Task<'a> {
    pub header: Header,
    pub packet: usize,
    pub received: &'a [u64],
    pub scope: Scope,
}

/// 1 for accepted, 0 for not
pub fn plan_check(task: &Task, requests: &[u64], naks: &[u64], answer: &mut Answer) {
    let Header { shape, ids } = &task.header;
    let (packet, (start, end)) = (task.packet, task.scope);
    let (from, count) = (task.received.as_ptr(), task.received.len());
    let (asked, requests) = (requests.as_ptr(), requests.len());
    let (threes, naks) = (naks.as_ptr(), naks.len());
    unsafe {
        raw::cfdp_plan_check(
            shape, ids, packet, from, count, start, end, asked, requests, threes, naks, answer,
        )
    }
}

/// requests, NAKs
pub fn plan(task: &Task, requests: &mut [u64], naks: &mut [u64], answer: &mut Answer) {
    let Header { shape, ids } = &task.header;
    let (packet, (start, end)) = (task.packet, task.scope);
    let (from, count) = (task.received.as_ptr(), task.received.len());
    let (asked, requests) = (requests.as_mut_ptr(), requests.len());
    let (threes, naks) = (naks.as_mut_ptr(), naks.len());
    unsafe {
        raw::cfdp_plan(
            shape, ids, packet, from, count, start, end, asked, requests, threes, naks, answer,
        )
    }
}
