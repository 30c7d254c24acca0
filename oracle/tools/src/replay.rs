//! The records of the replay list: commands with the Rust's answers, for a program that has no text.
//! README.md sets out their form, under 'The replay list'.
use crate::command::{Ack, Eof, Metadata, Nak};
use crate::places::*;
use crate::{Command, List, Record, Scope, parse, refusal};

/// What the Rust answers to a command inside the domain, in the words of the port's library.
pub struct Expected {
    /// The first of the library's numbers.
    pub answer: Vec<u64>,
    /// The caller's buffer after the call.
    pub buf: Option<Vec<u8>>,
    /// Start and end by turns.
    pub requests: Vec<u64>,
    /// Type, start and end of each option's value, counted from the area's start.
    pub options: Vec<u64>,
}

impl Expected {
    /// From the oracle's text; `None` where it is neither an acceptance nor in README.md's table.
    pub fn of(command: &Command, text: &str) -> Option<Expected> {
        let (said, buf) = match text.split_once(" buf ") {
            None => (text, None),
            Some((said, buf)) => (said, Some(parse::bytes(buf).ok()?)),
        };
        if !said.starts_with("ok") {
            return Some(Expected {
                answer: refusal::of_error(command, said)?,
                buf,
                requests: Vec::new(),
                options: Vec::new(),
            });
        }
        if let Command::Metadata(_) = command {
            return metadata_shown(said);
        }
        let shown = said.split(' ').filter_map(|w| w.parse().ok());
        let (answer, requests) = accepted(command, said, [0].into_iter().chain(shown).collect());
        Some(Expected {
            answer,
            buf,
            requests,
            options: Vec::new(),
        })
    }
}

/// What the oracle shows, 0 and then its numbers, in the library's order; and the requests of a NAK that is read.
fn accepted(command: &Command, said: &str, shown: Vec<u64>) -> (Vec<u64>, Vec<u64>) {
    let (header, rest) = shown.split_at(shown.len().min(ANSWER_DESTINATION + 1));
    let (mut answer, mut requests) = (header.to_vec(), Vec::new());
    match (command, rest) {
        (Command::Read(_), [scope_start, scope_end, pairs, data_end, rest @ ..]) => {
            let area_start = header_length(&answer) + 1 + 8 + 8 * answer[ANSWER_LARGE];
            answer.extend([*scope_start, *scope_end, area_start, *data_end, *pairs]);
            requests.extend(rest);
        }
        (Command::Reserve(_, pairs, _), [pdu_length, area_start, area_length]) => {
            let data_end = area_start + area_length;
            answer.extend([*pairs as u64, *area_start, data_end, *pdu_length]);
        }
        (Command::Finish(..), [_, _, _, pdu_length]) => answer.push(*pdu_length),
        (Command::Compare(..), _) => answer.push(u64::from(said == "ok equal")),
        (Command::Eof(_), rest) => {
            answer.extend(rest);
            answer.extend(fault_shown(said));
            answer.push(data_end(&answer));
        }
        (Command::Ack(_), rest) => {
            answer.extend(rest);
            answer.push(data_end(&answer));
        }
        (_, rest) => answer.extend(rest),
    }
    (answer, requests)
}

/// What is accepted of a Metadata PDU: names and options as places, which follow from their lengths.
fn metadata_shown(said: &str) -> Option<Expected> {
    let (said, walked) = said.split_once(" walked")?;
    let words: Vec<&str> = said.split(' ').collect();
    let mut answer = vec![0];
    for place in (1..15).chain([16, 18, 20]) {
        answer.push(words.get(place)?.parse().ok()?);
    }
    let mut at = header_length(&answer) + 2 + 4 + 4 * answer[ANSWER_LARGE];
    // A byte of length stands before each name.
    for (word, before) in [(22, 1), (23, 1), (25, 0)] {
        let start = at + before;
        at = start + length(words.get(word)?)?;
        answer.extend([start, at]);
    }
    Some(Expected {
        answer,
        buf: None,
        requests: Vec::new(),
        options: options_shown(walked)?,
    })
}

/// How many bytes a word of hex is.
fn length(hex: &str) -> Option<u64> {
    Some(parse::bytes(hex).ok()?.len() as u64)
}

/// Type, start and end of the value of each option that was walked.
fn options_shown(walked: &str) -> Option<Vec<u64>> {
    let mut options = Vec::new();
    let mut at = 0;
    for option in walked.split_ascii_whitespace() {
        let (option_type, value) = option.split_once(':')?;
        let end = at + 2 + length(value)?;
        options.extend([option_type.parse().ok()?, at + 2, end]);
        at = end;
    }
    Some(options)
}

/// Whether an EOF's answer shows a fault location, its width and its value.
fn fault_shown(said: &str) -> [u64; 3] {
    let (_, fault) = said.rsplit_once(' ').unwrap_or(("", said));
    match fault.split_once(':').map(|(w, v)| (w.parse(), v.parse())) {
        Some((Ok(width), Ok(value))) => [1, width, value],
        _ => [0, 0, 0],
    }
}

/// h of the header in an answer.
fn header_length(answer: &[u64]) -> u64 {
    4 + 2 * answer[ANSWER_SOURCE_WIDTH] + answer[ANSWER_SEQUENCE_WIDTH]
}

/// E of the header in an answer.
fn data_end(answer: &[u64]) -> u64 {
    header_length(answer) + answer[ANSWER_DATA_LENGTH] - 2 * answer[ANSWER_CRC]
}

/// The record of a command; `None` for one that the port or the Rust lacks, and for a buffer that is
/// not filled with one byte.
pub fn encoded(command: &Command, expected: &Expected) -> Option<Vec<u8>> {
    use Command::*;
    let mut to = Encoder(Vec::new());
    let encoder = match command {
        Crc(bytes) => to.code(1).bytes(bytes),
        Header(bytes) => to.code(2).bytes(bytes),
        Build(record) => to.code(3).header(record),
        Verify(record, bytes) => to.code(4).header(record).bytes(bytes),
        WriteHeader(record, buf) => to.code(5).header(record).buffer(buf)?,
        MostRequests(record, size) => to.code(6).header(record).number(*size as u64, 8),
        Read(bytes) => to.code(7).bytes(bytes),
        Write(nak, buf) => to.nak(8, nak, None).buffer(buf)?,
        Reserve(record, pairs, buf) => {
            let to = to.code(11).header(record).number(*pairs as u64, 8);
            to.buffer(buf)?
        }
        Finish(record, pairs, scope, buf) => {
            let to = to.code(12).header(record).scope(scope);
            to.number(*pairs as u64, 8).buffer(buf)?
        }
        Compare(bytes, nak) => to.nak(13, nak, Some(bytes)),
        Eof(bytes) => to.code(16).bytes(bytes),
        WriteEof(record, eof, buf) => to.code(17).header(record).eof(eof).buffer(buf)?,
        Ack(bytes) => to.code(18).bytes(bytes),
        WriteAck(record, ack, buf) => to.code(19).header(record).ack(ack).buffer(buf)?,
        Metadata(bytes) => to.code(20).bytes(bytes),
        WriteMetadata(record, metadata, buf) => {
            to.code(21).header(record).metadata(metadata).buffer(buf)?
        }
        WriteSized(..) => return None,
        Receive(_) | Differ(..) | Owed(_) | CheckPlan(..) | Plan(..) => return None,
    };
    encoder.expected(command, expected);
    Some(to.0)
}

struct Encoder(Vec<u8>);

impl Encoder {
    fn code(&mut self, code: u64) -> &mut Self {
        self.number(code, 1)
    }

    fn number(&mut self, number: u64, size: usize) -> &mut Self {
        self.0.extend_from_slice(&number.to_be_bytes()[8 - size..]);
        self
    }

    fn header(&mut self, r: &Record) -> &mut Self {
        let flags = [r.pdu_type, r.direction, r.mode, r.crc, r.large];
        self.0.extend(flags);
        self.0.extend([r.segmentation_control, r.segment_metadata]);
        let fields = [r.source, r.sequence, r.destination];
        // A width above 255 is outside the domain.
        self.0.extend(fields.map(|f| f.width as u8));
        self.number(r.data_length.into(), 2);
        fields.iter().for_each(|f| _ = self.number(f.value, 8));
        self
    }

    fn scope(&mut self, scope: &Scope) -> &mut Self {
        self.number(scope.start, 8).number(scope.end, 8)
    }

    fn eof(&mut self, eof: &Eof) -> &mut Self {
        self.number(eof.code, 1);
        self.number(eof.sum.into(), 4).number(eof.size, 8);
        let there = u64::from(eof.fault.is_some());
        let (width, value) = eof.fault.map_or((0, 0), |f| (f.width, f.value));
        self.number(there, 1).number(width, 1).number(value, 8)
    }

    fn ack(&mut self, ack: &Ack) -> &mut Self {
        self.number(ack.directive, 1);
        self.number(ack.code, 1).number(ack.status, 1)
    }

    fn metadata(&mut self, metadata: &Metadata) -> &mut Self {
        self.number(metadata.closure.into(), 1);
        self.number(metadata.checksum_type.into(), 1);
        self.number(metadata.size, 8).bytes(&metadata.source_name);
        self.bytes(&metadata.destination_name)
            .bytes(&metadata.option_area)
    }

    fn bytes(&mut self, bytes: &[u8]) -> &mut Self {
        self.number(bytes.len() as u64, 4);
        self.0.extend_from_slice(bytes);
        self
    }

    /// `code` is that of the command with no list.
    fn nak(&mut self, code: u64, nak: &Nak, bytes: Option<&[u8]>) -> &mut Self {
        let kind = match &nak.list {
            List::None => 0,
            List::Normal(_) => 1,
            List::Large(_) => 2,
        };
        self.code(code + kind).header(&nak.record).scope(&nak.scope);
        if let Some(bytes) = bytes {
            self.bytes(bytes);
        }
        match &nak.list {
            List::None => (),
            List::Normal(numbers) => {
                self.number(numbers.len() as u64, 4);
                numbers.iter().for_each(|n| _ = self.number((*n).into(), 4));
            }
            List::Large(numbers) => {
                self.number(numbers.len() as u64, 4);
                numbers.iter().for_each(|n| _ = self.number(*n, 8));
            }
        }
        self
    }

    fn buffer(&mut self, buf: &[u8]) -> Option<&mut Self> {
        let fill = buf.first().copied().unwrap_or(0);
        if buf.iter().any(|b| *b != fill) {
            return None;
        }
        Some(self.number(buf.len() as u64, 4).number(fill.into(), 1))
    }

    fn expected(&mut self, command: &Command, expected: &Expected) {
        self.number(expected.answer.len() as u64, 1);
        expected.answer.iter().for_each(|n| _ = self.number(*n, 8));
        if let Some(buf) = &expected.buf {
            let before = buffer_of(command);
            let same = buf.iter().rev().zip(before.iter().rev());
            let unchanged = same.take_while(|(after, before)| after == before).count();
            self.bytes(&buf[..buf.len() - unchanged]);
        }
        if let Command::Read(_) = command {
            self.number(expected.requests.len() as u64 / 2, 4);
            expected
                .requests
                .iter()
                .for_each(|n| _ = self.number(*n, 8));
        }
        if let Command::Metadata(_) = command {
            self.number(expected.options.len() as u64 / 3, 4);
            expected.options.iter().for_each(|n| _ = self.number(*n, 8));
        }
    }
}

/// The buffer that a command has written to, before the call.
pub fn buffer_of(command: &Command) -> &[u8] {
    use Command::*;
    match command {
        WriteHeader(_, buf) | Write(_, buf) | Reserve(_, _, buf) | Finish(_, _, _, buf) => buf,
        WriteEof(_, _, buf) | WriteAck(_, _, buf) | WriteMetadata(_, _, buf) => buf,
        _ => &[],
    }
}
