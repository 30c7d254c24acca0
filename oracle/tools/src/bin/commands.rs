//! Prints a list of commands for the drivers, the same for the same seed:
//!
//! ```text
//! commands SEED           every command of the protocol, those of the later requests too
//! commands base SEED      what port and Rust are both asked: src/lists/mod.rs names the parts
//! commands eof SEED       the same of EOFs and ACKs
//! commands metadata SEED  the same of Metadata PDUs
//! commands exhaustive     all short inputs, and every (byte 0, byte 3) at the lengths that matter
//! ```
use std::io::{BufWriter, Error, Result, Write, stdout};
use tools::lists;

fn main() -> Result<()> {
    let words: Vec<String> = std::env::args().skip(1).collect();
    let words: Vec<&str> = words.iter().map(String::as_str).collect();
    let out = &mut BufWriter::new(stdout().lock());
    match words[..] {
        ["exhaustive"] => lists::exhaustive(out)?,
        ["base", seed] => lists::base(number(seed)?, out)?,
        ["eof", seed] => lists::eof_and_ack(number(seed)?, out)?,
        ["metadata", seed] => lists::metadata(number(seed)?, out)?,
        [seed] => lists::whole(number(seed)?, out)?,
        _ => {
            return Err(Error::other(
                "usage: commands [base | eof | metadata] SEED, or commands exhaustive",
            ));
        }
    }
    out.flush()
}

fn number(word: &str) -> Result<u64> {
    word.parse().map_err(Error::other)
}
