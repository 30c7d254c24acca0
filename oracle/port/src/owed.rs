//! A log of NAKs heard and ranges resent (C-13 of document 02), asked of the port's library: in one run,
//! entry by entry, and in two runs with a cut after each entry. All must answer the same and leave the
//! same state.
use crate::answer::{UNTOUCHED, stray, values};
use crate::ffi::{self, ANSWER_LEN, OWED_COUNT, OWED_LEN, Owed};
use tools::places::*;
use tools::show;

const FRESH: Owed = [0; OWED_LEN];

/// Where a run stands: the refusal's number and values, none at the log's end; the offset; the state.
#[derive(PartialEq)]
struct Stood {
    refused: Vec<u64>,
    at: usize,
    state: Owed,
}

pub fn owed(log: &[u8]) -> String {
    said(log).unwrap_or_else(|stray| stray)
}

fn said(log: &[u8]) -> Result<String, String> {
    let whole = run(log, 0, FRESH)?;
    let mut at = 0;
    let mut state = FRESH;
    while at < log.len() {
        if in_parts(log, at)? != whole {
            return Err(stray(&[at as u64]));
        }
        match entry(&log[at..], at, &mut state)? {
            Ok(size) => at += size,
            Err(refused) => return told(Stood { refused, at, state }, &whole),
        }
    }
    let refused = vec![];
    told(Stood { refused, at, state }, &whole)
}

/// The text of where a run stands, which must be so entry by entry too.
fn told(stood: Stood, whole: &Stood) -> Result<String, String> {
    if stood != *whole {
        return Err(stray(&[stood.at as u64, whole.at as u64]));
    }
    let ranges = &stood.state[..2 * stood.state[OWED_COUNT] as usize];
    let words = ranges.iter().map(|n| format!(" {n}"));
    let text = match stood.refused[..] {
        [] => "ok".to_string(),
        _ => show::refused(&stood.refused),
    };
    let at = stood.at;
    Ok(format!(
        "{text} at {at} ranges{}",
        words.collect::<String>()
    ))
}

/// The bytes before a place, and then the rest.
fn in_parts(log: &[u8], at: usize) -> Result<Stood, String> {
    let first = run(&log[..at], 0, FRESH)?;
    match first.refused[..] {
        [] => run(log, at, first.state),
        _ => Ok(first),
    }
}

/// A refusal's number and values; of a log 18 has one.
fn refused(numbers: &[u64]) -> Result<Vec<u64>, String> {
    let count = match numbers[ANSWER_NUMBER] {
        18 => Some(1),
        other => values(other),
    };
    match count {
        Some(count) if numbers[1 + count..].iter().all(|n| *n == 0) => {
            Ok(numbers[..1 + count].to_vec())
        }
        _ => Err(stray(numbers)),
    }
}

fn run(log: &[u8], from: usize, mut state: Owed) -> Result<Stood, String> {
    let mut answer = [UNTOUCHED; ANSWER_LEN];
    ffi::owed_run(log, from, &mut state, &mut answer);
    let at = std::mem::take(&mut answer[ANSWER_OWED_AT]) as usize;
    let refused = match answer {
        [0, rest @ ..] if rest.iter().all(|n| *n == 0) => vec![],
        _ => refused(&answer)?,
    };
    Ok(Stood { refused, at, state })
}

/// The entry's length, or its refusal.
fn entry(bytes: &[u8], at: usize, state: &mut Owed) -> Result<Result<usize, Vec<u64>>, String> {
    let mut answer = [UNTOUCHED; ANSWER_LEN];
    ffi::owed_entry(bytes, at, state, &mut answer);
    match answer {
        [0, size, rest @ ..] if rest.iter().all(|n| *n == 0) => Ok(Ok(size as usize)),
        _ => Ok(Err(refused(&answer)?)),
    }
}
