//! Runs a replay list (README.md has its form) from standard input through the port's library.
//! Names each record that differs, by its place in the file; the last line is 'N replayed, M differ'.
//! Ends with 1 if any differ, or if the list is not of its form.
use port::answer::UNTOUCHED;
use port::ffi::{self, ANSWER_LEN, Ack, Answer, Eof, Header, Metadata, SHAPE_LEN};
use port::places::*;
use std::io::{Read, Result, stdin};
use std::process::ExitCode;

fn main() -> Result<ExitCode> {
    let mut list = Vec::new();
    stdin().read_to_end(&mut list)?;
    let mut from = Parts(&list);
    let (records, mut differ) = (from.number(4), 0);
    for _ in 0..records {
        let place = list.len() - from.0.len();
        if !replayed(&mut from) {
            println!("differs: the record at byte {place}");
            differ += 1;
        }
    }
    println!("{records} replayed, {differ} differ");
    let ended = differ == 0 && from.0.is_empty();
    Ok(ExitCode::from(u8::from(!ended)))
}

/// What is left of the list.
struct Parts<'a>(&'a [u8]);

impl<'a> Parts<'a> {
    fn bytes(&mut self, count: usize) -> &'a [u8] {
        let (first, rest) = self.0.split_at(count);
        self.0 = rest;
        first
    }

    fn number(&mut self, size: usize) -> u64 {
        let bytes = self.bytes(size).iter();
        bytes.fold(0, |n, byte| n << 8 | u64::from(*byte))
    }

    /// A count of 4 bytes, then as many bytes.
    fn counted(&mut self) -> &'a [u8] {
        let count = self.number(4) as usize;
        self.bytes(count)
    }

    fn numbers(&mut self, count: u64, size: usize) -> Vec<u64> {
        (0..count).map(|_| self.number(size)).collect()
    }

    /// A count of 1 byte, then as many numbers; the others are 0.
    fn answer(&mut self) -> Vec<u64> {
        let count = self.number(1);
        let mut numbers = self.numbers(count, 8);
        numbers.resize(ANSWER_LEN, 0);
        numbers
    }

    fn eof(&mut self) -> Eof {
        Eof {
            condition: self.number(1) as u8,
            file_checksum: self.number(4) as u32,
            file_size: self.number(8),
            fault: match (self.number(1), self.number(1), self.number(8)) {
                (0, ..) => None,
                (_, width, value) => Some((width as u8, value)),
            },
        }
    }

    fn metadata(&mut self) -> Metadata<'a> {
        Metadata {
            closure: self.number(1) != 0,
            checksum_type: self.number(1) as u8,
            file_size: self.number(8),
            source_name: self.counted(),
            destination_name: self.counted(),
            option_area: self.counted(),
        }
    }

    fn ack(&mut self) -> Ack {
        Ack {
            directive: self.number(1) as u8,
            condition: self.number(1) as u8,
            status: self.number(1) as u8,
        }
    }
}

/// What goes into a call. What a command does not take stays empty.
#[derive(Default)]
struct Inputs<'a> {
    header: Header,
    data_length: u16,
    scope: (u64, u64),
    size: usize,
    eof: Eof,
    ack: Ack,
    metadata: Metadata<'a>,
    bytes: &'a [u8],
    numbers: Vec<u64>,
    buf: Vec<u8>,
    fill: u8,
}

fn inputs<'a>(code: u64, from: &mut Parts<'a>) -> Inputs<'a> {
    let mut to = Inputs::default();
    if matches!(code, 3..=6 | 8..=15 | 17 | 19 | 21) {
        to.header.shape.copy_from_slice(from.bytes(SHAPE_LEN));
        to.data_length = from.number(2) as u16;
        to.header.ids = [from.number(8), from.number(8), from.number(8)];
    }
    if matches!(code, 8..=10 | 12..=15) {
        to.scope = (from.number(8), from.number(8));
    }
    if matches!(code, 6 | 11 | 12) {
        to.size = from.number(8) as usize;
    }
    match code {
        17 => to.eof = from.eof(),
        19 => to.ack = from.ack(),
        21 => to.metadata = from.metadata(),
        _ => (),
    }
    if matches!(code, 1 | 2 | 4 | 7 | 13..=16 | 18 | 20) {
        to.bytes = from.counted();
    }
    if matches!(code, 9 | 10 | 14 | 15) {
        let size = if matches!(code, 9 | 14) { 4 } else { 8 };
        let count = from.number(4);
        to.numbers = from.numbers(count, size);
    }
    if writes(code) {
        let length = from.number(4) as usize;
        to.fill = from.number(1) as u8;
        to.buf = vec![to.fill; length];
    }
    to
}

/// Whether a call of that code is given a buffer to write to.
fn writes(code: u64) -> bool {
    matches!(code, 5 | 8..=12 | 17 | 19 | 21)
}

/// Whether the next record's call gives what the record says.
fn replayed(from: &mut Parts) -> bool {
    let code = from.number(1);
    let mut inputs = inputs(code, from);
    let answer = call(code, &mut inputs);
    let mut same = from.answer() == answer;
    if writes(code) {
        let mut after = from.counted().to_vec();
        after.resize(inputs.buf.len(), inputs.fill);
        same &= after == inputs.buf;
    }
    if code == 7 {
        let count = from.number(4);
        same &= from.numbers(2 * count, 8) == requests(&answer, inputs.bytes);
    }
    if code == 20 {
        let count = from.number(4);
        same &= from.numbers(3 * count, 8) == options(&answer, inputs.bytes);
    }
    same
}

fn call(code: u64, inputs: &mut Inputs) -> Answer {
    let Inputs {
        header,
        data_length,
        scope,
        size,
        bytes,
        numbers: large,
        buf,
        ..
    } = inputs;
    let (data_length, scope, size) = (*data_length, *scope, *size);
    let normal: &Vec<u32> = &large.iter().map(|n| *n as u32).collect();
    let mut answer = [UNTOUCHED; ANSWER_LEN];
    let a = &mut answer;
    match code {
        1 => {
            *a = [0; ANSWER_LEN];
            a[ANSWER_VALUE] = ffi::checksum(bytes).into();
        }
        2 => ffi::header_read(bytes, a),
        3 => ffi::header_build(header, data_length, a),
        4 => ffi::header_verify(header, data_length, bytes, a),
        5 => ffi::header_write(header, data_length, buf, a),
        6 => ffi::nak_most(header, size, a),
        7 => ffi::nak_read(bytes, a),
        8 => ffi::nak_write(header, scope, buf, a),
        9 => ffi::nak_write_normal(header, scope, normal, buf, a),
        10 => ffi::nak_write_large(header, scope, large, buf, a),
        11 => ffi::nak_reserve(header, size, buf, a),
        12 => ffi::nak_finish(header, size, scope, buf, a),
        13 => ffi::nak_compare(bytes, header, scope, a),
        14 => ffi::nak_compare_normal(bytes, header, scope, normal, a),
        15 => ffi::nak_compare_large(bytes, header, scope, large, a),
        _ => call_of_others(code, inputs, a),
    }
    answer
}

/// The calls on EOFs, ACKs and Metadata PDUs.
fn call_of_others(code: u64, inputs: &mut Inputs, a: &mut Answer) {
    let (header, bytes, buf) = (&inputs.header, inputs.bytes, &mut inputs.buf);
    match code {
        16 => ffi::eof_read(bytes, a),
        17 => ffi::eof_write(header, &inputs.eof, buf, a),
        18 => ffi::ack_read(bytes, a),
        19 => ffi::ack_write(header, &inputs.ack, buf, a),
        20 => ffi::metadata_read(bytes, a),
        21 => ffi::metadata_write(header, &inputs.metadata, buf, a),
        _ => (),
    }
}

/// The pairs of an accepted reading, start and end by turns; none of a refused one.
fn requests(answer: &Answer, bytes: &[u8]) -> Vec<u64> {
    if answer[ANSWER_NUMBER] != 0 {
        return Vec::new();
    }
    let area_start = answer[ANSWER_NAK_AREA_START] as usize;
    let data_end = answer[ANSWER_NAK_DATA_END] as usize;
    let mut numbers = vec![UNTOUCHED; 2 * answer[ANSWER_NAK_PAIRS] as usize];
    let large = answer[ANSWER_LARGE] == 1;
    ffi::nak_pairs(&bytes[area_start..data_end], large, &mut numbers);
    numbers
}

/// Type, and start and end of the value, of each option of an accepted Metadata PDU; none of a refused one.
fn options(answer: &Answer, bytes: &[u8]) -> Vec<u64> {
    let mut numbers = Vec::new();
    if answer[ANSWER_NUMBER] != 0 {
        return numbers;
    }
    let area_start = answer[ANSWER_METADATA_OPTION_AREA_START] as usize;
    let area = &bytes[area_start..answer[ANSWER_METADATA_DATA_END] as usize];
    let mut at = 0;
    loop {
        let mut option = [UNTOUCHED; ANSWER_LEN];
        ffi::metadata_option(area, at, &mut option);
        let next = option[ANSWER_OPTION_NEXT];
        if option[ANSWER_NUMBER] != 0 || next == 0 {
            // A walk that does not end where the area does shows a number of its own.
            numbers.extend((at != area.len()).then_some(UNTOUCHED));
            return numbers;
        }
        numbers.extend(&option[ANSWER_OPTION_TYPE..=ANSWER_OPTION_VALUE_END]);
        at = next as usize;
    }
}
