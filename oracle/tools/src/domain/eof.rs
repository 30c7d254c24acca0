//! Where port and Rust are compared on an EOF (document 02, C-01).
use super::{Pdu, allowed, fits, judge_directive, size_fits};
use crate::Record;
use crate::command::Eof;

const CODE: u8 = 4;
const ENTITY_ID: u8 = 6;

/// The condition codes that both sides refuse.
pub fn reserved(code: u8) -> bool {
    matches!(code, 12 | 13)
}

/// Those that the Rust's list has; the port has 9 too.
pub fn known(code: u64) -> bool {
    matches!(code, 0..=8 | 10 | 11 | 14 | 15)
}

/// Whatever both refuse alike before the directive is looked at, and of type 0 what declares the whole
/// file size. Below that the Rust tests E against 10, or 14, leaves h out, and reads beyond E.
pub fn reading(bytes: &[u8]) -> bool {
    let Some(pdu) = Pdu::whole(bytes) else {
        return true;
    };
    let least = 6 + pdu.offsets(1);
    if pdu.file_data || pdu.data.len() < least {
        return false;
    }
    let code = pdu.data[1] >> 4;
    if pdu.data[0] != CODE || reserved(code) {
        return true;
    }
    known(code.into()) && location(code, &pdu.data[least..])
}

/// Whether the Rust judges the bytes after the file size as refusal 28 does: with code 0 it ignores
/// them, it reads beyond E, and it ignores what follows the field.
fn location(code: u8, bytes: &[u8]) -> bool {
    match bytes {
        [] => true,
        _ if code == 0 => false,
        [field_type, ..] if *field_type != ENTITY_ID => true,
        [_] => false,
        [_, width, value @ ..] => !allowed(u64::from(*width)) || value.len() == usize::from(*width),
    }
}

/// Of a valid record what the Rust's types hold and the port does not refuse: on writing 16, 29, and 3
/// and 14 for the fault location are the port's own.
pub fn writing(record: &Record, eof: &Eof) -> bool {
    let widest = eof.fault.map_or(0, |fault| fault.width);
    let held = eof.code <= 255 && widest <= 255;
    held && judge_directive(record, || {
        let fault = eof.fault.is_none_or(|f| allowed(f.width) && fits(&f));
        known(eof.code) && size_fits(record.large, eof.size) && fault
    })
}
