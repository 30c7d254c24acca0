//! A stream of NAKs in fragments to the port's receiver; beside it the Rust, which reads each NAK from the
//! whole stream and has no receiver.
use crate::nak::Sample;
use crate::timing::median;
use port::ffi::{self, ANSWER_LEN, WINDOW_LEN};
use port::places::*;
use spacepackets::cfdp::pdu::CfdpPdu;
use spacepackets::cfdp::pdu::nak::NakPduReader;
use std::hint::black_box;

/// How long a stream is at least; a sample of the longer one is still shorter than the time for which a busy machine lets others run.
const SHORT: usize = 1 << 12;
const LONG: usize = 1 << 15;

pub fn table() {
    println!("\nA stream of NAKs, nanoseconds a byte:\n");
    println!(
        "| NAKs of | stream, bytes | Rust, each from the whole | port, whole | in 2,048 | in 64 | in 1 | a call more, ns |"
    );
    println!("|---|---:|---:|---:|---:|---:|---:|---:|");
    for (pairs, crc) in [(1, false), (100, false), (1, true), (100, true)] {
        for least in [SHORT, LONG] {
            row(pairs, crc, least);
        }
    }
}

fn row(pairs: u32, crc: bool, least: usize) {
    let sample = Sample::new(pairs, crc);
    let naks = least.div_ceil(sample.bytes.len());
    let stream = sample.bytes.repeat(naks);
    let a_byte = |time: f64| time / stream.len() as f64;
    assert_eq!(read_by_rust(&stream), naks);
    let rust = a_byte(median(|| read_by_rust(black_box(&stream))));
    let [whole, large, middle, single] = [stream.len(), 2048, 64, 1].map(|size| {
        assert_eq!(received(&stream, size), naks);
        a_byte(median(|| received(black_box(&stream), size)))
    });
    let plural = if pairs == 1 { "" } else { "s" };
    let crc = if crc { ", CRC" } else { "" };
    println!(
        "| {pairs} pair{plural}{crc} | {} | {rust:.2} | {whole:.2} | {large:.2} | {middle:.2} | {single:.2} | {:.1} |",
        stream.len(),
        single - whole
    );
}

fn read_by_rust(stream: &[u8]) -> usize {
    let (mut at, mut naks) = (0, 0);
    while at < stream.len() {
        let nak = NakPduReader::new(&stream[at..]).expect("it was written");
        at += nak.pdu_header().pdu_len();
        naks += 1;
    }
    naks
}

/// How many NAKs a fresh receiver gives of the stream in fragments of that size.
fn received(stream: &[u8], size: usize) -> usize {
    let (mut window, mut filled, mut naks) = ([0; WINDOW_LEN], 0, 0);
    let mut answer = [0; ANSWER_LEN];
    for mut fragment in stream.chunks(size) {
        while !fragment.is_empty() {
            let taken = ffi::receive(&mut window, &mut filled, fragment, &mut answer);
            fragment = &fragment[taken..];
            naks += usize::from(answer[ANSWER_NUMBER] == 0);
        }
    }
    naks
}
