//! Streams of the differential run's NAKs laid end to end, cut in four ways, and what a receiver must answer to them (C-07 of
//! document 02): the NAKs as the Rust reads each from its whole buffer, where the document says that a refusal is given,
//! and the window. It looks at the whole stream at once, and knows no state but that.
use crate::domain::{self, checksum};
use crate::make::Random;
use crate::rust::perform;
use crate::{Command, lists, refusal, show};
use std::io::{Error, Result};

/// "a window of 2,048 bytes"
const WINDOW: usize = 2048;
/// The fewest bytes that a reader of a NAK asks for.
const LEAST: usize = 9;
/// What is kept of a stream; 22 needs no more than a header.
const LONGEST: usize = 4000;

/// The buffers that the differential run has read: those that are NAKs, cut to their P bytes and not too
/// long for a window, and all others.
pub struct Pool {
    naks: Vec<Vec<u8>>,
    others: Vec<Vec<u8>>,
}

impl Pool {
    pub fn new(seed: u64) -> Result<Pool> {
        let mut list = Vec::new();
        lists::base(seed, &mut list)?;
        let list = String::from_utf8(list).map_err(Error::other)?;
        let (mut naks, mut others) = (Vec::new(), Vec::new());
        for line in list.lines().filter(|line| line.starts_with("read ")) {
            let Ok(Command::Read(bytes)) = Command::parse(line) else {
                return Err(Error::other(line.to_string()));
            };
            match Heard::of(&bytes) {
                Some(heard) if !heard.naks.is_empty() => {
                    naks.push(bytes[..heard.naks[0].end].to_vec())
                }
                _ => others.push(bytes),
            }
        }
        Ok(Pool { naks, others })
    }

    /// One to six NAKs; after one stream in four something else, perhaps cut.
    pub fn stream(&self, random: &mut Random) -> Vec<u8> {
        fn any<'a>(random: &mut Random, of: &'a [Vec<u8>]) -> &'a [u8] {
            &of[random.below(of.len() as u64) as usize]
        }
        let mut stream = Vec::new();
        for _ in 0..1 + random.below(6) {
            stream.extend(any(random, &self.naks));
        }
        if random.below(4) == 0 {
            let other = any(random, &self.others);
            let cut = random.below(2 * other.len() as u64 + 2) as usize;
            stream.extend(&other[..cut.min(other.len())]);
        }
        stream.truncate(LONGEST);
        stream
    }
}

/// The four ways: whole, a byte at a time, in sevens, and anywhere, empty fragments too.
pub fn cuts(stream: &[u8], random: &mut Random) -> [Vec<Vec<u8>>; 4] {
    let in_parts = |n: usize| stream.chunks(n).map(<[u8]>::to_vec).collect();
    let mut places: Vec<usize> = (0..random.below(8))
        .map(|_| random.below(stream.len() as u64 + 1) as usize)
        .collect();
    places.sort_unstable();
    places.push(stream.len());
    let mut from = 0;
    let mut anywhere = Vec::new();
    for to in places {
        anywhere.push(stream[from..to].to_vec());
        from = to;
    }
    [vec![stream.to_vec()], in_parts(1), in_parts(7), anywhere]
}

/// receive BYTES BYTES ..
pub fn command(fragments: &[Vec<u8>]) -> String {
    let words = fragments
        .iter()
        .map(|bytes| format!(" {}", show::hex(bytes)));
    format!("receive{}", words.collect::<String>())
}

/// A NAK: where its PDU starts and ends in the stream, and what is shown of it.
struct Given {
    start: usize,
    end: usize,
    text: String,
}

/// What is heard of a stream: its NAKs, where the PDU after them starts, and the refusal of that one
/// with the place after the last byte that is taken.
pub struct Heard {
    naks: Vec<Given>,
    start: usize,
    refused: Option<(usize, String)>,
}

impl Heard {
    /// `None` where the documents do not compare port and Rust.
    pub fn of(stream: &[u8]) -> Option<Heard> {
        let mut heard = Heard {
            naks: Vec::new(),
            start: 0,
            refused: None,
        };
        loop {
            let start = heard.start;
            match next(&stream[start..])? {
                Next::Waits => return Some(heard),
                Next::Refused(taken, numbers) => {
                    heard.refused = Some((start + taken, show::refused(&numbers)));
                    return Some(heard);
                }
                Next::Nak(pdu_length, text) => {
                    heard.start = start + pdu_length;
                    heard.naks.push(Given {
                        start,
                        end: heard.start,
                        text,
                    });
                }
            }
        }
    }

    /// What the calls with those fragments of the stream must answer.
    pub fn answer(&self, stream: &[u8], fragments: &[Vec<u8>]) -> String {
        let naks = self
            .naks
            .iter()
            .map(|nak| (nak.end, format!("nak{}", nak.text)));
        let mut naks = naks.peekable();
        let (mut at, mut end, mut calls) = (0, 0, Vec::new());
        for fragment in fragments {
            if !self.is_refused(at) {
                end += fragment.len();
            }
            while let Some((stop, text)) = naks.next_if(|(stop, _)| *stop <= end) {
                calls.push(format!("{} {text}", stop - at));
                at = stop;
            }
            let used = at == end && !fragment.is_empty();
            match &self.refused {
                Some((stop, text)) if *stop <= end => {
                    calls.push(format!("{} {text}", stop - at));
                    (at, end) = (*stop, *stop);
                }
                _ if used => (),
                _ => {
                    calls.push(format!("{} more", end - at));
                    at = end;
                }
            }
        }
        let (filled, window) = self.left(&stream[..at]);
        show::received(&calls, filled, window)
    }

    fn is_refused(&self, at: usize) -> bool {
        self.refused.as_ref().is_some_and(|(stop, _)| *stop <= at)
    }

    /// How many bytes of the next PDU are in the window, and its checksum, when the stream was taken.
    fn left(&self, taken: &[u8]) -> (usize, u16) {
        let mut window = [0; WINDOW];
        for nak in &self.naks {
            window[..nak.end - nak.start].copy_from_slice(&taken[nak.start..nak.end]);
        }
        let rest = &taken[self.start..];
        window[..rest.len()].copy_from_slice(rest);
        (rest.len(), checksum(&window))
    }
}

enum Next {
    Waits,
    /// The bytes that are taken with it, its number and its values.
    Refused(usize, Vec<u64>),
    /// P, and the words of `read` after 'ok'.
    Nak(usize, String),
}

/// The PDU at the front of the rest of a stream. The Rust reads the header, and the PDU from its P bytes, or from 9 where it has fewer.
fn next(rest: &[u8]) -> Option<Next> {
    let header = Command::Header(rest.to_vec());
    let text = perform(header.clone());
    let Some(header_length) = text.rsplit_once(" length ") else {
        let numbers = refusal::of_error(&header, &text)?;
        return Some(match numbers[0] {
            1 => Next::Waits,
            _ => Next::Refused(4, numbers),
        });
    };
    let header_length: usize = header_length.1.parse().ok()?;
    let data_length = usize::from(u16::from_be_bytes([rest[1], rest[2]]));
    let pdu_length = header_length + data_length;
    if WINDOW < pdu_length {
        return Some(Next::Refused(header_length, vec![22]));
    }
    if rest.len() < pdu_length {
        return Some(Next::Waits);
    }
    let pdu = &rest[..pdu_length.max(LEAST).min(rest.len())];
    let read = Command::Read(pdu.to_vec());
    if !domain::reading(pdu) {
        return None;
    }
    let text = perform(read.clone());
    if let Some(shown) = text.strip_prefix("ok") {
        return Some(Next::Nak(pdu_length, shown.to_string()));
    }
    let numbers = refusal::of_error(&read, &text)?;
    Some(match numbers[0] {
        1 => Next::Waits,
        5 => Next::Refused(pdu_length, numbers),
        _ => Next::Refused(pdu_length.max(LEAST), numbers),
    })
}
