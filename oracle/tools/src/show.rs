//! Values as text: the words of a line, and one function for each form of accepted answer.
use crate::command::{Ack, Eof, Metadata, Nak};
use crate::{Field, List, Record, Scope};
use std::fmt::{Display, Formatter, Result as Shown, Write};

/// What a reading shows.
pub struct Reading {
    pub record: Record,
    pub scope: Scope,
    pub count: usize,
    pub data_end: usize,
    /// `None` where an empty area has no iterator.
    pub requests: Option<Vec<(u64, u64)>>,
}

/// What reserving hands back.
pub struct Reserved {
    pub record: Record,
    pub pdu_length: usize,
    pub area_start: usize,
    pub area_length: usize,
}

/// REC
impl Display for Record {
    fn fmt(&self, f: &mut Formatter<'_>) -> Shown {
        let flags = [
            self.pdu_type,
            self.direction,
            self.mode,
            self.crc,
            self.large,
            self.segmentation_control,
            self.segment_metadata,
        ];
        for flag in flags {
            write!(f, "{flag} ")?;
        }
        write!(f, "{}", self.data_length)?;
        for field in [self.source, self.sequence, self.destination] {
            write!(f, " {} {}", field.width, field.value)?;
        }
        Ok(())
    }
}

/// LIST
impl Display for List {
    fn fmt(&self, f: &mut Formatter<'_>) -> Shown {
        fn joined<T: ToString>(numbers: &[T]) -> String {
            let words: Vec<String> = numbers.iter().map(T::to_string).collect();
            words.join(",")
        }
        match self {
            List::None => write!(f, "none"),
            List::Normal(numbers) => write!(f, "n:{}", joined(numbers)),
            List::Large(numbers) => write!(f, "l:{}", joined(numbers)),
        }
    }
}

/// REC START END LIST
impl Display for Nak {
    fn fmt(&self, f: &mut Formatter<'_>) -> Shown {
        let Scope { start, end } = self.scope;
        write!(f, "{} {start} {end} {}", self.record, self.list)
    }
}

/// CODE SUM SIZE FAULT
impl Display for Eof {
    fn fmt(&self, f: &mut Formatter<'_>) -> Shown {
        let Eof {
            code, sum, size, ..
        } = self;
        write!(f, "{code} {sum} {size} {}", fault(&self.fault))
    }
}

/// DIRECTIVE CODE STATUS
impl Display for Ack {
    fn fmt(&self, f: &mut Formatter<'_>) -> Shown {
        write!(f, "{} {} {}", self.directive, self.code, self.status)
    }
}

/// CLOSURE TYPE SIZE NAME NAME OPTIONS
impl Display for Metadata {
    fn fmt(&self, f: &mut Formatter<'_>) -> Shown {
        let parts = [&self.source_name, &self.destination_name, &self.option_area];
        write!(f, "{} {} {}", self.closure, self.checksum_type, self.size)?;
        parts
            .iter()
            .try_for_each(|part| write!(f, " {}", hex(part)))
    }
}

/// FAULT
pub fn fault(location: &Option<Field>) -> String {
    match location {
        None => "-".to_string(),
        Some(field) => format!("{}:{}", field.width, field.value),
    }
}

/// Hex of bytes; `-` for none.
pub fn hex(bytes: &[u8]) -> String {
    const DIGITS: &[u8; 16] = b"0123456789abcdef";
    if bytes.is_empty() {
        return "-".to_string();
    }
    let mut digits = String::with_capacity(2 * bytes.len());
    for byte in bytes {
        digits.push(DIGITS[usize::from(byte >> 4)] as char);
        digits.push(DIGITS[usize::from(byte & 15)] as char);
    }
    digits
}

/// crc, verify, wheader, max
pub fn number(n: impl Display) -> String {
    format!("ok {n}")
}

/// build
pub fn record(record: &Record) -> String {
    format!("ok {record}")
}

/// header
pub fn header(record: &Record, header_length: usize) -> String {
    format!("ok {record} length {header_length}")
}

/// read
pub fn reading(nak: &Reading) -> String {
    let Scope { start, end } = nak.scope;
    let mut text = format!(
        "ok {} scope {start} {end} count {} end {} requests",
        nak.record, nak.count, nak.data_end
    );
    match &nak.requests {
        None => text += " none",
        Some(pairs) => {
            for (start, end) in pairs {
                let _ = write!(text, " {start} {end}");
            }
        }
    }
    text
}

/// write, weof, wack, wmetadata
pub fn written(record: &Record, pdu_length: usize) -> String {
    format!("ok {record} written {pdu_length}")
}

/// reserve
pub fn reserved(reserved: &Reserved) -> String {
    format!(
        "ok {} written {} area {} {}",
        reserved.record, reserved.pdu_length, reserved.area_start, reserved.area_length
    )
}

/// finish
pub fn finished(before: &Reserved, pdu_length: usize) -> String {
    format!("{} finished {pdu_length}", reserved(before))
}

/// compare
pub fn comparison(equal: bool) -> String {
    format!("ok {}", if equal { "equal" } else { "different" })
}

/// eof
pub fn eof(record: &Record, eof: &Eof) -> String {
    format!(
        "ok {record} code {} sum {} size {} fault {}",
        eof.code,
        eof.sum,
        eof.size,
        fault(&eof.fault)
    )
}

/// ack
pub fn ack(record: &Record, ack: &Ack) -> String {
    format!(
        "ok {record} of {} code {} status {}",
        ack.directive, ack.code, ack.status
    )
}

/// metadata; `walked` has type and value of each option that the walk gave
pub fn metadata(record: &Record, metadata: &Metadata, walked: &[(u8, Vec<u8>)]) -> String {
    let mut text = format!(
        "ok {record} closure {} type {} size {} names {} {} options {} walked",
        metadata.closure,
        metadata.checksum_type,
        metadata.size,
        hex(&metadata.source_name),
        hex(&metadata.destination_name),
        hex(&metadata.option_area)
    );
    for (option_type, value) in walked {
        let _ = write!(text, " {option_type}:{}", hex(value));
    }
    text
}

/// A refusal of document 01: its number, then its values.
pub fn refused(numbers: &[u64]) -> String {
    let words = numbers.iter().map(|n| format!(" {n}"));
    format!("refused{}", words.collect::<String>())
}

/// The answer to a command that the port does not have.
pub const LACKING: &str = "bad the port has no such command";

/// receive: its calls, and the window that is left
pub fn received(calls: &[String], filled: usize, window: u16) -> String {
    format!("ok {} filled {filled} window {window}", calls.join(" ; "))
}

/// The answer to a command that is for the port alone.
pub const NOT_IN_RUST: &str = "bad the Rust has no such command";

/// The answer of a command that was given numbers to write to, with all of them as they stand afterwards.
pub fn with_numbers(answer: &str, lent: &[u64]) -> String {
    let words: Vec<String> = lent.iter().map(u64::to_string).collect();
    match words[..] {
        [] => format!("{answer} lent -"),
        _ => format!("{answer} lent {}", words.join(",")),
    }
}

/// The answer of a command that was given a buffer to write to.
pub fn with_buffer(answer: &str, buf: &[u8]) -> String {
    format!("{answer} buf {}", hex(buf))
}
