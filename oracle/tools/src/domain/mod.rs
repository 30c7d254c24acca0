//! Where port and Rust are compared: the section of document 01 with that name, what its table calls
//! the port's own, and where a request of document 02 departs from the Rust. It is judged from the
//! command alone, by neither side's answer.
mod ack;
mod eof;
mod metadata;

use crate::command::{Command, Nak};
use crate::make::{nak_len, pair_size};
use crate::{Field, List, Record, Scope};

const MAX_NORMAL_PAIRS: usize = 8190;
const MAX_LARGE_PAIRS: usize = 4094;

/// Whether the answers to a command are compared; `None` for a command that one of them lacks.
pub fn compared(command: &Command) -> Option<bool> {
    use Command::*;
    Some(match command {
        Crc(_) | Header(_) => true,
        Build(record) | Verify(record, _) => judge(record, || true),
        MostRequests(record, size) => judge_directive(record, || count_fits(record, *size)),
        WriteHeader(record, buf) => judge(record, || header_room(record, buf.len())),
        Read(bytes) => reading(bytes),
        Write(nak, _) => writing(nak),
        Reserve(record, count, _) => judge_directive(record, || pairs_fit(record.large, *count)),
        Finish(record, count, scope, _) => judge_directive(record, || {
            pairs_fit(record.large, *count) && scope_fits(record.large, scope)
        }),
        Compare(bytes, nak) => reading(bytes) && writing(nak),
        Eof(bytes) => eof::reading(bytes),
        Ack(bytes) => ack::reading(bytes),
        WriteEof(record, eof, _) => eof::writing(record, eof),
        WriteAck(record, ack, _) => ack::writing(record, ack),
        Metadata(bytes) => metadata::reading(bytes),
        WriteMetadata(record, metadata, _) => metadata::writing(record, metadata),
        // The Rust has no such command.
        Receive(_) | Differ(..) | Owed(_) | CheckPlan(..) | Plan(..) => false,
        WriteSized(..) => return None,
    })
}

/// "every buffer, except those that hold all P bytes, have a good checksum, and whose E is at least
/// 9 and below h + 1 + F"; C-05: "for type 0 only", and for type 1 as far as 21 is not reached.
pub fn reading(bytes: &[u8]) -> bool {
    let Some(pdu) = Pdu::whole(bytes) else {
        return true;
    };
    pdu.data_end < 9 || !pdu.file_data && 1 + pdu.offsets(2) <= pdu.data.len()
}

/// What a buffer holds that every reader takes, of whatever directive: a good header, all P bytes and
/// a good checksum.
struct Pdu<'a> {
    file_data: bool,
    towards_sender: bool,
    large: bool,
    /// E
    data_end: usize,
    /// What follows the header, up to E.
    data: &'a [u8],
}

impl Pdu<'_> {
    /// `None` where the readers of both sides refuse the buffer alike, by tests that they share.
    fn whole(bytes: &[u8]) -> Option<Pdu<'_>> {
        let header_length = header_read(bytes)?;
        let data_length = usize::from(u16::from_be_bytes([bytes[1], bytes[2]]));
        let whole = bytes.get(..header_length + data_length)?;
        let bit = |k: u8| bytes[0] >> k & 1 == 1;
        let crc = bit(1);
        if crc && checksum(whole) != 0 {
            return None;
        }
        let data_end = whole.len() - 2 * usize::from(crc);
        Some(Pdu {
            file_data: bit(4),
            towards_sender: bit(3),
            large: bit(0),
            data_end,
            data: whole.get(header_length..data_end).unwrap_or(&[]),
        })
    }

    /// The bytes of so many offsets into a file, or of one file size.
    fn offsets(&self, count: usize) -> usize {
        count * if self.large { 8 } else { 4 }
    }
}

/// h of a buffer whose header is accepted.
fn header_read(bytes: &[u8]) -> Option<usize> {
    let &[first, _, _, widths, ..] = bytes else {
        return None;
    };
    let [entity, sequence] = [widths >> 4 & 7, widths & 7].map(|bits| usize::from(bits) + 1);
    let header_length = 4 + 2 * entity + sequence;
    let widths = allowed(entity as u64) && allowed(sequence as u64);
    (first >> 5 == 1 && widths && header_length <= bytes.len()).then_some(header_length)
}

/// Generator x^16 + x^12 + x^5 + 1, start 0xFFFF, most significant bit first.
pub fn checksum(bytes: &[u8]) -> u16 {
    let bit = |r: u16| (r << 1) ^ ((r >> 15) * 0x1021);
    let byte = |r: u16, b: &u8| (0..8).fold(r ^ u16::from(*b) << 8, |r, _| bit(r));
    bytes.iter().fold(0xffff, byte)
}

/// Whether a record's refusal is the Rust's too (13, 3, 4); for a valid record, `valid`. Refusal 14
/// is the port's own, and no record of the port's holds a width above 255.
fn judge(record: &Record, valid: impl FnOnce() -> bool) -> bool {
    let fields = [record.source, record.sequence, record.destination];
    if fields.iter().any(|f| f.width > 255) {
        return false;
    }
    if record.source.width != record.destination.width || !fields.iter().all(|f| allowed(f.width)) {
        return true;
    }
    fields.iter().all(fits) && valid()
}

/// C-05: a directive PDU's record has type 0; 21 is the port's own.
fn judge_directive(record: &Record, valid: impl FnOnce() -> bool) -> bool {
    judge(record, || record.pdu_type == 0 && valid())
}

fn allowed(width: u64) -> bool {
    matches!(width, 1 | 2 | 4 | 8)
}

/// Of an allowed width.
fn fits(field: &Field) -> bool {
    field.width == 8 || field.value >> (8 * field.width) == 0
}

/// "for a header alone, a buffer below 4 + e + s or of at least h"; since C-02 of at least h: below
/// it the port names h, and the Rust names 4 or panics.
fn header_room(record: &Record, room: usize) -> bool {
    let (entity, sequence) = (record.source.width, record.sequence.width);
    room as u64 >= 4 + 2 * entity + sequence
}

/// "valid records with pairs that fit and scopes that fit the final file flag"; an odd count of
/// numbers is the port's own refusal 12.
fn writing(nak: &Nak) -> bool {
    let (large, numbers) = match &nak.list {
        List::None => (nak.record.large, 0),
        List::Normal(numbers) => (0, numbers.len()),
        List::Large(numbers) => (1, numbers.len()),
    };
    judge_directive(&nak.record, || {
        numbers % 2 == 0 && pairs_fit(large, numbers / 2) && scope_fits(large, &nak.scope)
    })
}

fn pairs_fit(large: u8, pairs: usize) -> bool {
    pairs
        <= if large == 1 {
            MAX_LARGE_PAIRS
        } else {
            MAX_NORMAL_PAIRS
        }
}

/// C-08: "the smaller of that rule and 8,190 or 4,094", so the Rust is asked where its rule is the
/// smaller.
fn count_fits(record: &Record, size: usize) -> bool {
    let area_length = size.saturating_sub(nak_len(record, 0));
    pairs_fit(record.large, area_length / pair_size(record))
}

fn scope_fits(large: u8, scope: &Scope) -> bool {
    size_fits(large, scope.start.max(scope.end))
}

/// Whether a file's size, or an offset into it, has the bytes that the file flag gives it.
fn size_fits(large: u8, size: u64) -> bool {
    large == 1 || size <= u64::from(u32::MAX)
}
