//! The words of a line to plain values. A word that is not of the protocol's form gives a reason.
use crate::{Field, List, Record, Scope};
use std::str::{FromStr, SplitAsciiWhitespace};

/// A value, or why the line is not of the protocol.
pub type Parsed<T> = Result<T, String>;

/// The most that LEN*XX and COUNT*A,B may repeat: enough for sixteen PDUs of the greatest length.
const MAX_REPEAT: usize = 1 << 20;

/// The words of a line that are not yet read.
pub struct Words<'a>(SplitAsciiWhitespace<'a>);

impl<'a> Words<'a> {
    pub fn of(line: &'a str) -> Self {
        Words(line.split_ascii_whitespace())
    }

    pub fn word(&mut self, what: &str) -> Parsed<&'a str> {
        self.0.next().ok_or_else(|| format!("no {what}"))
    }

    pub fn number<T: FromStr>(&mut self, what: &str) -> Parsed<T> {
        number(self.word(what)?, what)
    }

    pub fn flag(&mut self, what: &str) -> Parsed<u8> {
        match self.number(what)? {
            bit @ (0 | 1) => Ok(bit),
            other => Err(format!("{what} {other} is not 0 or 1")),
        }
    }

    /// WIDTH VALUE
    fn field(&mut self, what: &str) -> Parsed<Field> {
        Ok(Field {
            width: self.number(what)?,
            value: self.number(what)?,
        })
    }

    /// REC
    pub fn record(&mut self) -> Parsed<Record> {
        Ok(Record {
            pdu_type: self.flag("PDU type")?,
            direction: self.flag("direction")?,
            mode: self.flag("transmission mode")?,
            crc: self.flag("CRC flag")?,
            large: self.flag("large file flag")?,
            segmentation_control: self.flag("segmentation control")?,
            segment_metadata: self.flag("segment metadata flag")?,
            data_length: self.number("data field length")?,
            source: self.field("source")?,
            sequence: self.field("sequence number")?,
            destination: self.field("destination")?,
        })
    }

    /// START END
    pub fn scope(&mut self) -> Parsed<Scope> {
        Ok(Scope {
            start: self.number("start of scope")?,
            end: self.number("end of scope")?,
        })
    }

    /// BYTES, one word of the line
    pub fn bytes(&mut self) -> Parsed<Vec<u8>> {
        bytes(self.word("bytes")?)
    }

    /// BYTES, the rest of the line, blanks left out
    pub fn all_bytes(&mut self) -> Parsed<Vec<u8>> {
        let first = self.word("bytes")?;
        match self.0.next() {
            None => bytes(first),
            Some(second) => {
                let rest: String = self.0.by_ref().collect();
                bytes(&format!("{first}{second}{rest}"))
            }
        }
    }

    /// BYTES BYTES .., the rest of the line
    pub fn fragments(&mut self) -> Parsed<Vec<Vec<u8>>> {
        let first = self.word("bytes")?;
        std::iter::once(first)
            .chain(self.0.by_ref())
            .map(bytes)
            .collect()
    }

    /// LENT
    pub fn lent(&mut self) -> Parsed<usize> {
        match self.number("how many numbers are lent")? {
            count if count <= MAX_REPEAT => Ok(count),
            more => Err(format!("{more} lent numbers")),
        }
    }

    /// LIST
    pub fn list(&mut self) -> Parsed<List> {
        let word = self.word("list")?;
        match word.split_once(':') {
            None if word == "none" => Ok(List::None),
            Some(("n", numbers)) => Ok(List::Normal(list(numbers)?)),
            Some(("l", numbers)) => Ok(List::Large(list(numbers)?)),
            _ => Err(format!("list {word}")),
        }
    }

    /// NUMBERS: '-' for none
    pub fn numbers(&mut self) -> Parsed<Vec<u64>> {
        match self.word("numbers")? {
            "-" => Ok(Vec::new()),
            word => word.split(',').map(|n| number(n, "number")).collect(),
        }
    }

    /// FAULT
    pub fn fault(&mut self) -> Parsed<Option<Field>> {
        let word = self.word("fault location")?;
        match word.split_once(':') {
            None if word == "-" => Ok(None),
            Some((width, value)) => Ok(Some(Field {
                width: number(width, "fault location")?,
                value: number(value, "fault location")?,
            })),
            None => Err(format!("fault location {word}")),
        }
    }

    pub fn end(mut self) -> Parsed<()> {
        match self.0.next() {
            None => Ok(()),
            Some(word) => Err(format!("one word too many, {word}")),
        }
    }
}

fn number<T: FromStr>(word: &str, what: &str) -> Parsed<T> {
    word.parse().map_err(|_| format!("{what} {word}"))
}

fn repeats(word: &str) -> Parsed<usize> {
    match number(word, "repeat")? {
        n if n <= MAX_REPEAT => Ok(n),
        n => Err(format!("repeat {n} is above {MAX_REPEAT}")),
    }
}

/// BYTES
pub fn bytes(word: &str) -> Parsed<Vec<u8>> {
    if word == "-" {
        return Ok(Vec::new());
    }
    if let Some((count, fill)) = word.split_once('*') {
        return match hex(fill)?[..] {
            [byte] => Ok(vec![byte; repeats(count)?]),
            _ => Err(format!("bytes {word}")),
        };
    }
    hex(word)
}

fn hex(digits: &str) -> Parsed<Vec<u8>> {
    let digit = |d: u8| (d as char).to_digit(16).map(|n| n as u8);
    let pair = |p: &[u8]| Some(digit(p[0])? << 4 | digit(*p.get(1)?)?);
    let read: Option<Vec<u8>> = digits.as_bytes().chunks(2).map(pair).collect();
    read.ok_or_else(|| format!("hex {digits}"))
}

fn list<T: FromStr + Copy>(word: &str) -> Parsed<Vec<T>> {
    match word.split_once('*') {
        None => numbers(word),
        Some((count, pair)) => Ok(numbers(pair)?.repeat(repeats(count)?)),
    }
}

fn numbers<T: FromStr>(word: &str) -> Parsed<Vec<T>> {
    let words = word.split(',').filter(|word| !word.is_empty());
    words.map(|word| number(word, "list number")).collect()
}
