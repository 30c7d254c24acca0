//! The loop that every driver of the protocol is: a line in, a line out.
use crate::{Command, domain};
use std::io::{BufRead, BufWriter, Result, Write, stdin, stdout};

/// Answers each line of standard input by `perform`, until its end.
pub fn serve(mut perform: impl FnMut(Command) -> String) -> Result<()> {
    let mut out = BufWriter::new(stdout().lock());
    for line in stdin().lock().lines() {
        let line = line?;
        let line = line.trim();
        if line.is_empty() || line.starts_with('#') {
            writeln!(out, "{line}")?;
            continue;
        }
        match Command::parse(line) {
            Err(reason) => writeln!(out, "bad {reason}")?,
            Ok(command) => {
                out.write_all(front(&command))?;
                writeln!(out, "{}", perform(command))?;
            }
        }
    }
    out.flush()
}

/// The word that says whether document 01 compares the two sides here; none for a later command.
fn front(command: &Command) -> &'static [u8] {
    match domain::compared(command) {
        _ if command.is_later() => b"",
        Some(true) => b"in ",
        Some(false) => b"out ",
        None => b"",
    }
}
