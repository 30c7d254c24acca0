//! Two NAKs compared (C-03 of document 02), asked of the port's library.
use crate::answer::{Said, ask, stray};
use crate::ffi;
use tools::places::*;
use tools::show;

/// What stands in the caller's numbers before a call: the protocol names it, since those that are left
/// as they were are shown.
const LENT: u64 = 7;

pub fn differ(first: &[u8], second: &[u8], count: usize) -> String {
    let mut ranges = vec![LENT; count];
    let text = said(first, second, &mut ranges).unwrap_or_else(|refused| refused);
    show::with_numbers(&text, &ranges)
}

fn said(first: &[u8], second: &[u8], ranges: &mut [u64]) -> Said {
    let answer = ask(ANSWER_DIFFER_RANGES, |a| {
        ffi::differ(first, second, ranges, a)
    })?;
    let one = answer[ANSWER_DIFFER_METADATA_1];
    let two = answer[ANSWER_DIFFER_METADATA_2];
    if one > 1 || two > 1 {
        return Err(stray(&answer));
    }
    let count = answer[ANSWER_DIFFER_RANGES];
    Ok(format!("ok metadata {one} {two} ranges {count}"))
}
