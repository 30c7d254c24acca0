//! Writes the replay list to standard output: some thousands of commands inside the domain, each with
//! the Rust's answer, in the form that README.md sets out. It is the same every time.
//!
//! Document 01's cases come first. Then, of lists by chance, those that add something: an answer of a
//! command with widths, a flag, a length, a code or a count of pairs that was not yet there often enough.
//! Two records have as many pairs as fit.
use std::collections::HashMap;
use std::io::{Result, Write, stderr, stdout};
use tools::places::*;
use tools::replay::{Expected, buffer_of, encoded};
use tools::{Command, Record, domain, lists, rust};

const CASES: &str = include_str!("../../../tests/smoke.txt");
const SEED: u64 = 20_260_101;
/// How often each thing that is to be covered is taken, where the command is accepted and where not.
const ACCEPTED: u32 = 4;
const REFUSED: u32 = 2;
/// A record of more bytes is taken only for its count of pairs.
const SMALL: usize = 1_000;

fn main() -> Result<()> {
    std::panic::set_hook(Box::new(|_| ()));
    let mut list = Vec::new();
    lists::base(SEED, &mut list)?;
    lists::eof_and_ack(SEED, &mut list)?;
    lists::metadata(SEED, &mut list)?;
    let list = String::from_utf8(list).expect("a list is text");
    let mut chosen = Chosen::default();
    CASES.lines().for_each(|line| chosen.consider(line, true));
    list.lines().for_each(|line| chosen.consider(line, false));
    let records = chosen.records.len();
    let bytes = chosen.records.concat();
    writeln!(stderr(), "{records} records, {} bytes", bytes.len() + 4)?;
    let mut out = stdout().lock();
    out.write_all(&(records as u32).to_be_bytes())?;
    out.write_all(&bytes)
}

#[derive(Default)]
struct Chosen {
    records: Vec<Vec<u8>>,
    seen: HashMap<String, u32>,
}

impl Chosen {
    /// Takes the line's command if it adds something, or if it is a `case`.
    fn consider(&mut self, line: &str, case: bool) {
        let Ok(command) = Command::parse(line) else {
            return;
        };
        if domain::compared(&command) != Some(true) {
            return;
        }
        let text = rust::perform(command.clone());
        let Some(expected) = Expected::of(&command, &text) else {
            panic!("inside the domain, and not in the table: {line}: {text}");
        };
        let Some(record) = encoded(&command, &expected) else {
            return;
        };
        let things = match record.len() {
            0..=SMALL => things(&command, &expected.answer, record[0]),
            _ => most(&expected.answer, record[0]),
        };
        let most = match (record[0], expected.answer[ANSWER_NUMBER]) {
            // Each length of a checksum and each unknown code is a thing by itself.
            (1, _) | (_, 7) => 1,
            (_, 0) if record.len() <= SMALL => ACCEPTED,
            (_, 0) => 1,
            _ => REFUSED,
        };
        let new = |thing: &String| self.seen.get(thing).is_none_or(|n| *n < most);
        if case || things.iter().any(new) {
            for thing in things {
                *self.seen.entry(thing).or_default() += 1;
            }
            self.records.push(record);
        }
    }
}

/// What a record covers that is too large to be taken for anything else.
fn most(answer: &[u64], code: u8) -> Vec<String> {
    match (code, answer) {
        (9, [0, .., (65_536..)]) => vec!["8,190 pairs written".to_string()],
        (7, [0, .., 4094]) => vec!["4,094 pairs read".to_string()],
        _ => Vec::new(),
    }
}

/// What a small record covers, each with the command and the number of its answer.
fn things(command: &Command, answer: &[u64], code: u8) -> Vec<String> {
    let of = format!("{code} {}", answer[ANSWER_NUMBER]);
    let (first, widths) = shape(command);
    let mut things: Vec<String> = (0..7)
        .map(|k| format!("{of} flag {k} {}", first >> k & 1))
        .collect();
    match answer {
        // Codes, versions and widths; the other numbers of a refusal are lengths.
        [7, number] if code >= 16 => things.push(format!("{of} number {}", number.min(&14))),
        [2 | 3 | 4 | 7 | 8 | 13, number, ..] => things.push(format!("{of} number {number}")),
        _ => things.push(format!("{of} widths {widths:x}")),
    }
    let (crc, large) = (first >> 1 & 1, first & 1);
    let amounts = amounts(command, answer);
    things.push(format!("{of} crc {crc} large {large} {amounts}"));
    // The others are refused before a code is judged.
    if let [0 | 16 | 17 | 28 | 30 | 31, ..] = answer {
        let codes = codes(command).into_iter();
        things.extend(codes.map(|(what, code)| format!("{of} {what} {code}")));
    }
    things
}

/// The codes of an EOF, an ACK and a Metadata PDU, the fault location's type and width, and about how long names are.
fn codes(command: &Command) -> Vec<(&'static str, u64)> {
    use Command::*;
    match command {
        Eof(bytes) => eof_codes(data(bytes), bytes[0] & 1 == 1),
        Ack(bytes) => {
            let [of, code] = [1, 2].map(|k| at(data(bytes), k));
            let spare = [("subtype", of & 15), ("status", code & 15)];
            [[("of", of >> 4), ("code", code >> 4)], spare].concat()
        }
        WriteEof(_, eof, _) => {
            let width = eof.fault.map_or(0, |fault| fault.width);
            vec![("code", eof.code), ("width", width)]
        }
        Metadata(bytes) => metadata_codes(data(bytes), bytes[0] & 1 == 1),
        WriteMetadata(_, metadata, _) => {
            let names = [&metadata.source_name, &metadata.destination_name];
            let [source, destination] = names.map(|name| name.len().min(256) as u64 / 51);
            vec![
                ("type", metadata.checksum_type.into()),
                ("closure", metadata.closure.into()),
                ("source", source),
                ("destination", destination),
                ("options", u64::from(!metadata.option_area.is_empty())),
            ]
        }
        WriteAck(_, ack, _) => {
            let codes = [("of", ack.directive), ("code", ack.code)];
            [&codes[..], &[("status", ack.status)]].concat()
        }
        _ => Vec::new(),
    }
}

/// Closure flag and spare bits, checksum type, and the lengths of names and options by their places.
fn metadata_codes(data: &[u8], large: bool) -> Vec<(&'static str, u64)> {
    let names = if large { 10 } else { 6 };
    let source = at(data, names);
    let destination = at(data, names + 1 + source as usize);
    vec![
        ("upper", at(data, 1) >> 4),
        ("type", at(data, 1) & 15),
        ("source", source / 51),
        ("destination", destination / 51),
    ]
}

fn eof_codes(data: &[u8], large: bool) -> Vec<(&'static str, u64)> {
    let field = &data[if large { 14 } else { 10 }..];
    let [field_type, width] = [at(field, 0), at(field, 1)];
    vec![
        ("code", at(data, 1) >> 4),
        ("type", u64::from(field_type == 6)),
        ("width", width.min(10)),
    ]
}

/// A byte of the data, 0 where there is none.
fn at(data: &[u8], place: usize) -> u64 {
    data.get(place).map_or(0, |byte| u64::from(*byte))
}

/// What follows a header whose widths are there.
fn data(bytes: &[u8]) -> &[u8] {
    let widths = bytes.get(3).copied().unwrap_or(0);
    let header_length = 7 + 2 * usize::from(widths >> 4 & 7) + usize::from(widths & 7);
    bytes.get(header_length..).unwrap_or(&[])
}

/// The seven flags, and both widths in one byte.
fn shape(command: &Command) -> (u8, u8) {
    use Command::*;
    match command {
        Crc(_) => (0, 0),
        Header(bytes) | Read(bytes) | Eof(bytes) | Ack(bytes) | Metadata(bytes) => {
            let at = |k: usize| bytes.get(k).copied().unwrap_or(0);
            let flags = at(3) >> 3 & 1 | at(3) >> 6 & 2;
            (at(0) & 31 | flags << 5, at(3) & 0x77)
        }
        Build(r) | Verify(r, _) | WriteHeader(r, _) | MostRequests(r, _) => record_shape(r),
        Reserve(r, ..) | Finish(r, ..) => record_shape(r),
        Write(nak, _) | Compare(_, nak) => record_shape(&nak.record),
        WriteEof(r, ..) | WriteAck(r, ..) | WriteMetadata(r, ..) => record_shape(r),
        _ => (0, 0),
    }
}

fn record_shape(r: &Record) -> (u8, u8) {
    let flags = r.pdu_type << 4 | r.direction << 3 | r.mode << 2 | r.crc << 1 | r.large;
    let more = r.segment_metadata | r.segmentation_control << 1;
    let [entity, sequence] = [r.source.width, r.sequence.width].map(|w| w.min(15) as u8);
    (flags | more << 5, entity << 4 | sequence)
}

/// How much was asked and how much there was: by how much a length is short, what is left over.
fn amounts(command: &Command, answer: &[u64]) -> String {
    let apart = |a: u64, b: u64| b.abs_diff(a).min(2);
    match (command, answer) {
        (_, [1 | 6 | 11, found, needed]) => {
            // 4 and 9 are needed whatever the widths.
            let of = if [4, 9].contains(needed) { *needed } else { 0 };
            format!("short {} of {of}", apart(*found, *needed))
        }
        (Command::Read(bytes), [0, .., area_start, data_end, pairs]) => {
            let rest = u8::from((data_end - area_start) % 8 != 0);
            let beyond = apart(bytes.len() as u64, *data_end);
            format!("pairs {} rest {rest} beyond {beyond}", pairs.min(&3))
        }
        (Command::MostRequests(..), [0, most @ (8190 | 4094)]) => format!("pairs {most}"),
        (Command::MostRequests(..), [0, pairs]) => format!("pairs {}", pairs.min(&3)),
        (Command::Compare(..), [0, equal]) => format!("equal {equal}"),
        (Command::Crc(bytes), _) => format!("length {}", bytes.len()),
        (Command::Write(nak, buf), [0, .., pdu_length]) => {
            let left = apart(*pdu_length, buf.len() as u64);
            format!("pairs {} left {left}", nak.list.pairs())
        }
        (_, [0, .., written]) => {
            format!("left {}", apart(*written, buffer_of(command).len() as u64))
        }
        _ => String::new(),
    }
}
