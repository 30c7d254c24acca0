//! Where port and Rust are compared on an ACK (document 02, C-01).
use super::eof::{known, reserved};
use super::{Pdu, judge_directive};
use crate::Record;
use crate::command::Ack;

const CODE: u8 = 6;
const LENGTH: usize = 3;

/// Whatever both refuse alike before the directive is looked at, and of type 0 what declares all three
/// bytes; below that the Rust tests E before the directive.
pub fn reading(bytes: &[u8]) -> bool {
    let Some(pdu) = Pdu::whole(bytes) else {
        return true;
    };
    let &[directive_code, acknowledged, condition, ..] = pdu.data else {
        return false;
    };
    if pdu.file_data {
        return false;
    }
    let [directive, code] = [acknowledged, condition].map(|byte| byte >> 4);
    match directive {
        _ if directive_code != CODE => true,
        4 | 5 if reserved(code) => true,
        4 | 5 => known(code.into()) && stands(&pdu, directive),
        // With both faults the Rust gives 17, and the port 16.
        _ => !reserved(code),
    }
}

/// Whether direction and length are those that the Rust's reader works out anew.
fn stands(pdu: &Pdu, directive: u8) -> bool {
    pdu.towards_sender == (directive == 4) && pdu.data.len() == LENGTH
}

/// Of a valid record what the Rust's types hold. 16 is the port's own, as is 17 for a directive that is
/// unknown.
pub fn writing(record: &Record, ack: &Ack) -> bool {
    let held = ack.directive <= 255 && ack.code <= 255 && ack.status <= 3;
    held && judge_directive(record, || {
        known(ack.code) && matches!(ack.directive, 4..=9 | 12)
    })
}
