//! A plan of NAKs made and checked. The Rust crate has none, so beside the port stands a plain one, written here.
use crate::header::{accepted, port_header};
use crate::timing::row;
use port::ffi::{self, ANSWER_LEN, Answer, Task};
use port::places::*;
use std::hint::black_box;

/// A packet that holds 100 requests: a NAK of header 7 without CRC has 16 bytes, and 8 for each.
const PACKET: usize = 816;
const MOST: usize = 100;

/// Every other stretch of 1,000 bytes was received, so that so many are missing.
pub fn plans(missing: usize) {
    let count = missing as u64;
    let received: Vec<u64> = (1..count)
        .flat_map(|i| [2000 * i - 1000, 2000 * i])
        .collect();
    let end = 2000 * count - 1000;
    let task = Task {
        header: port_header(false),
        packet: PACKET,
        received: &received,
        scope: (0, end),
    };
    let parts = missing.div_ceil(MOST);
    let mut requests = vec![0; 2 * missing];
    let mut naks = vec![0; 3 * parts];
    let mut answer: Answer = [0; ANSWER_LEN];
    ffi::plan(&task, &mut requests, &mut naks, &mut answer);
    accepted(&answer);
    assert_eq!(answer[ANSWER_PLAN_REQUESTS], count);
    assert_eq!(answer[ANSWER_PLAN_NAKS], parts as u64);
    assert_eq!((requests.clone(), naks.clone()), planned(&received, 0, end));

    let by_hand = || planned(black_box(&received), 0, end);
    let (mut some, mut parted) = (requests.clone(), naks.clone());
    row(&format!("plan {missing} missing ranges"), by_hand, || {
        let mut answer: Answer = [0; ANSWER_LEN];
        ffi::plan(black_box(&task), &mut some, &mut parted, &mut answer);
        answer[ANSWER_NUMBER]
    });
    let by_hand = || planned(black_box(&received), 0, end) == (requests.clone(), naks.clone());
    row(&format!("check a plan of {missing}"), by_hand, || {
        let mut answer: Answer = [0; ANSWER_LEN];
        ffi::plan_check(black_box(&task), &requests, &naks, &mut answer);
        answer[ANSWER_VALUE]
    });
}

/// The gaps between the received ranges, in NAKs of at most so many.
fn planned(received: &[u64], start: u64, end: u64) -> (Vec<u64>, Vec<u64>) {
    let (mut requests, mut at) = (Vec::new(), start);
    let all = received.chunks(2).map(|r| (r[0], r[1]));
    for (from, to) in all.chain([(end, end)]) {
        if at < from {
            requests.extend([at, from]);
        }
        at = at.max(to);
    }
    let mut naks = Vec::new();
    let mut scope_start = start;
    let groups = requests.chunks(2 * MOST);
    let last = groups.len();
    for (k, group) in groups.enumerate() {
        let scope_end = if k + 1 == last {
            end
        } else {
            group[group.len() - 1]
        };
        naks.extend([scope_start, scope_end, group.len() as u64 / 2]);
        scope_start = scope_end;
    }
    (requests, naks)
}
