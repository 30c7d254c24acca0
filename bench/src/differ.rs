//! Two NAKs beside each other. The Rust has no such function: beside the port's stands one written here over the Rust's reader, which
//! gathers the pairs and goes through both lists at once.
use crate::ranges::{nak, pairs_of, pieces};
use crate::timing::row;
use port::ffi::{self, ANSWER_LEN, Answer};
use port::places::*;
use std::hint::black_box;

/// Start, end, and 1 or 2, the side that asks.
type Range = [u64; 3];

/// NAKs of that many pairs; those of the second begin 10 bytes later, so that each pair makes two ranges.
pub fn row_of(pairs: u32) {
    let (one, two) = (nak(pairs, 0), nak(pairs, 10));
    let mut ranges = vec![0; 6 * pairs as usize];
    let wanted = by_rust(&one, &two);
    let count = by_port(&one, &two, &mut ranges)[ANSWER_DIFFER_RANGES];
    assert_eq!(count, wanted.len() as u64);
    assert_eq!(ranges[..3 * wanted.len()], wanted.concat());
    let what = format!("compare two NAKs of {pairs} pairs");
    row(
        &what,
        || by_rust(black_box(&one), black_box(&two)).len(),
        || by_port(black_box(&one), black_box(&two), black_box(&mut ranges))[ANSWER_DIFFER_RANGES],
    );
}

fn by_port(one: &[u8], two: &[u8], ranges: &mut [u64]) -> Answer {
    let mut answer = [0; ANSWER_LEN];
    ffi::differ(one, two, ranges, &mut answer);
    assert_eq!(answer[ANSWER_NUMBER], 0);
    answer
}

fn by_rust(one: &[u8], two: &[u8]) -> Vec<Range> {
    let mut ranges = Vec::<Range>::new();
    pieces(&pairs_of(one), &pairs_of(two), |at, to, first, second| {
        if first == second {
            return;
        }
        let side = if first { 1 } else { 2 };
        match ranges.last_mut() {
            Some(last) if last[1] == at && last[2] == side => last[1] = to,
            _ => ranges.push([at, to, side]),
        }
    });
    ranges
}
