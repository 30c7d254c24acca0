//! A log of NAKs heard and ranges resent. The Rust has no such function: beside the port's stands one written here over the Rust's reader,
//! which gathers the pairs of each entry and goes through them and the ranges that are owed at once.
use crate::ranges::{Ranges, nak, pairs_of, pieces};
use crate::timing::row;
use port::ffi::{self, ANSWER_LEN, OWED_COUNT, OWED_LEN, Owed};
use port::places::*;
use std::hint::black_box;

/// Ten NAKs of that many pairs each, each with another 4,000 bytes, and after each a range that splits its first one; all of it so many
/// times over.
pub fn row_of(pairs: u32, times: usize) {
    let log: Vec<u8> = (0..10).flat_map(|i| entries(4000 * i, pairs)).collect();
    let log = log.repeat(times);
    let wanted = by_rust(&log);
    let state = by_port(&log);
    let ranges: Vec<u64> = wanted
        .iter()
        .flat_map(|&(start, end)| [start, end])
        .collect();
    assert_eq!(state[OWED_COUNT], wanted.len() as u64);
    assert_eq!(state[..ranges.len()], ranges);
    let what = format!(
        "run a log of {} entries, {pairs} pairs a NAK, {} ranges at the end",
        20 * times,
        wanted.len()
    );
    row(
        &what,
        || by_rust(black_box(&log)).len(),
        || by_port(black_box(&log))[OWED_COUNT],
    );
}

fn entries(base: u32, pairs: u32) -> Vec<u8> {
    let nak = nak(pairs, base);
    let mut bytes = vec![1];
    bytes.extend((nak.len() as u16).to_be_bytes());
    bytes.extend(nak);
    bytes.extend([2, 0, 16]);
    bytes.extend(u64::from(base + 10).to_be_bytes());
    bytes.extend(u64::from(base + 20).to_be_bytes());
    bytes
}

fn by_port(log: &[u8]) -> Owed {
    let (mut state, mut answer) = ([0; OWED_LEN], [0; ANSWER_LEN]);
    ffi::owed_run(log, 0, &mut state, &mut answer);
    assert_eq!(answer[ANSWER_NUMBER], 0);
    state
}

fn by_rust(log: &[u8]) -> Ranges {
    let (mut owed, mut at) = (Ranges::new(), 0);
    while at < log.len() {
        let end = at + 3 + usize::from(u16::from_be_bytes([log[at + 1], log[at + 2]]));
        let contents = &log[at + 3..end];
        let offset = |i: usize| u64::from_be_bytes(contents[i..i + 8].try_into().expect("8 bytes"));
        owed = match log[at] {
            1 => joined(&owed, &pairs_of(contents), |before, asked| before || asked),
            _ => joined(&owed, &[(offset(0), offset(8))], |before, resent| {
                before && !resent
            }),
        };
        at = end;
    }
    owed
}

fn joined(one: &[(u64, u64)], two: &[(u64, u64)], is_owed: impl Fn(bool, bool) -> bool) -> Ranges {
    let mut ranges = Ranges::new();
    pieces(one, two, |at, to, first, second| {
        if !is_owed(first, second) {
            return;
        }
        match ranges.last_mut() {
            Some(last) if last.1 == at => last.1 = to,
            _ => ranges.push((at, to)),
        }
    });
    ranges
}
