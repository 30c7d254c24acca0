//! Streams for a receiver, each cut in four ways, the same for the same seed:
//!
//! ```text
//! streams SEED COUNT              four commands `receive` for each of so many streams
//! streams answers SEED COUNT      what they must answer: src/streams.rs says by what
//! ```
use std::io::{BufWriter, Error, Result, Write, stdout};
use tools::make::Random;
use tools::streams::{Heard, Pool, command, cuts};

fn main() -> Result<()> {
    let words: Vec<String> = std::env::args().skip(1).collect();
    let words: Vec<&str> = words.iter().map(String::as_str).collect();
    std::panic::set_hook(Box::new(|_| ()));
    let out = &mut BufWriter::new(stdout().lock());
    match words[..] {
        [seed, count] => streams(number(seed)?, number(count)?, false, out)?,
        ["answers", seed, count] => streams(number(seed)?, number(count)?, true, out)?,
        _ => return Err(Error::other("usage: streams [answers] SEED COUNT")),
    }
    out.flush()
}

/// A stream on which the documents do not compare port and Rust is passed over.
fn streams(seed: u64, count: u64, answers: bool, out: &mut impl Write) -> Result<()> {
    let pool = Pool::new(seed)?;
    let random = &mut Random(seed);
    let mut done = 0;
    while done < count {
        let stream = pool.stream(random);
        let cuts = cuts(&stream, random);
        let Some(heard) = Heard::of(&stream) else {
            continue;
        };
        for fragments in cuts {
            match answers {
                false => writeln!(out, "{}", command(&fragments))?,
                true => writeln!(out, "{}", heard.answer(&stream, &fragments))?,
            }
        }
        done += 1;
    }
    Ok(())
}

fn number(word: &str) -> Result<u64> {
    word.parse().map_err(Error::other)
}
