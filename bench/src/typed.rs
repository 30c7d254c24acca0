//! The crate of bindings/rust beside the bare functions: what its names and records cost.
use crate::header::{accepted, port_header};
use crate::timing::row;
use cfdp::{EntityId, Header, Nak, Pair, Pairs, TransactionSeqNum};
use port::ffi::{self, ANSWER_LEN};
use std::hint::black_box;

const SCOPE: Pair = Pair {
    start: 0,
    end: 9_000_000,
};

/// A NAK of so many pairs, read and walked pair by pair, and written.
pub fn nak(count: u32) {
    let header = Header {
        towards_sender: true,
        entity_width: 1,
        sequence_width: 1,
        source: EntityId(1),
        sequence: TransactionSeqNum(2),
        destination: EntityId(3),
        ..Header::default()
    };
    let pairs: Vec<Pair<u32>> = (0..count)
        .map(|k| Pair {
            start: 1000 * k,
            end: 1000 * k + 500,
        })
        .collect();
    let numbers: Vec<u32> = pairs.iter().flat_map(|p| [p.start, p.end]).collect();
    let mut bytes = vec![0; 16 + 8 * count as usize];
    let plural = if count == 1 { "" } else { "s" };

    let (mut one, mut other) = (bytes.clone(), bytes.clone());
    row(
        &format!("Rust: write {count} pair{plural}"),
        || write_raw(black_box(&numbers), &mut one),
        || {
            let pairs = Pairs::Normal(black_box(&pairs));
            let written = Nak::write(black_box(&header), SCOPE, pairs, &mut other);
            written.expect("there is room").length
        },
    );
    assert_eq!(one, other);
    bytes.copy_from_slice(&one);
    assert_eq!(walk_raw(&bytes), walk_typed(&bytes));
    row(
        &format!("Rust: read and walk {count} pair{plural}"),
        || walk_raw(black_box(&bytes)),
        || walk_typed(black_box(&bytes)),
    );
}

fn write_raw(numbers: &[u32], buf: &mut [u8]) -> usize {
    let mut answer = [0; ANSWER_LEN];
    let scope = (SCOPE.start, SCOPE.end);
    ffi::nak_write_normal(
        black_box(&port_header(false)),
        scope,
        numbers,
        buf,
        &mut answer,
    );
    accepted(&answer);
    answer[15] as usize
}

/// How many bytes are asked for.
fn walk_raw(bytes: &[u8]) -> u64 {
    let mut answer = [0; ANSWER_LEN];
    ffi::nak_read(bytes, &mut answer);
    accepted(&answer);
    let area = &bytes[answer[17] as usize..answer[18] as usize];
    let (mut pair, mut index, mut asked) = ([0; 2], 0, 0);
    while ffi::nak_pair(area, answer[5] == 1, index, &mut pair) {
        asked += pair[1] - pair[0];
        index += 1;
    }
    asked
}

fn walk_typed(bytes: &[u8]) -> u64 {
    let nak = Nak::read(bytes).expect("it was written");
    nak.pairs().map(|pair| pair.end - pair.start).sum()
}
