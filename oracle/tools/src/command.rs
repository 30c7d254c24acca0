//! A line of the protocol as a value.
use crate::parse::{Parsed, Words};
use crate::{Field, List, Record, Scope};

/// One command. The bytes to be read, or the buffer to be written to, come last (in `Compare` first).
#[derive(Clone, Debug, PartialEq, Eq)]
pub enum Command {
    Crc(Vec<u8>),
    Header(Vec<u8>),
    Build(Record),
    Verify(Record, Vec<u8>),
    WriteHeader(Record, Vec<u8>),
    MostRequests(Record, usize),
    Read(Vec<u8>),
    Write(Nak, Vec<u8>),
    WriteSized(Nak, Vec<u8>),
    Reserve(Record, usize, Vec<u8>),
    Finish(Record, usize, Scope, Vec<u8>),
    Compare(Vec<u8>, Nak),
    Eof(Vec<u8>),
    Ack(Vec<u8>),
    Metadata(Vec<u8>),
    WriteEof(Record, Eof, Vec<u8>),
    WriteAck(Record, Ack, Vec<u8>),
    WriteMetadata(Record, Metadata, Vec<u8>),
    Receive(Vec<Vec<u8>>),
    /// A log.
    Owed(Vec<u8>),
    /// Two buffers, and how many numbers there is room for.
    Differ(Vec<u8>, Vec<u8>, usize),
    CheckPlan(Task, Vec<u64>, Vec<u64>),
    Plan(Task, usize, usize),
}

/// A NAK to be written.
#[derive(Clone, Debug, PartialEq, Eq)]
pub struct Nak {
    pub record: Record,
    pub scope: Scope,
    pub list: List,
}

/// What an EOF says beside its header. A code may be above all that a byte holds.
#[derive(Clone, Debug, PartialEq, Eq)]
pub struct Eof {
    pub code: u64,
    pub sum: u32,
    pub size: u64,
    pub fault: Option<Field>,
}

/// What an ACK says beside its header.
#[derive(Clone, Debug, PartialEq, Eq)]
pub struct Ack {
    pub directive: u64,
    pub code: u64,
    pub status: u64,
}

/// What a Metadata PDU says beside its header.
#[derive(Clone, Debug, PartialEq, Eq)]
pub struct Metadata {
    pub closure: u8,
    pub checksum_type: u8,
    pub size: u64,
    pub source_name: Vec<u8>,
    pub destination_name: Vec<u8>,
    pub option_area: Vec<u8>,
}

/// What NAKs are planned for: the packet size, the whole scope, and the received ranges, start and end by turns.
#[derive(Clone, Debug, PartialEq, Eq)]
pub struct Task {
    pub record: Record,
    pub size: usize,
    pub scope: Scope,
    pub received: Vec<u64>,
}

impl Command {
    pub fn parse(line: &str) -> Parsed<Command> {
        let mut words = Words::of(line);
        let command = command(&mut words)?;
        words.end()?;
        Ok(command)
    }

    /// Whether a request of document 02 brought it.
    pub fn is_later(&self) -> bool {
        use Command::*;
        matches!(
            self,
            Eof(_)
                | Ack(_)
                | Metadata(_)
                | WriteEof(..)
                | WriteAck(..)
                | WriteMetadata(..)
                | Receive(_)
                | Owed(_)
                | Differ(..)
                | CheckPlan(..)
                | Plan(..)
        )
    }
}

fn command(words: &mut Words) -> Parsed<Command> {
    use Command::*;
    Ok(match words.word("command")? {
        "crc" => Crc(words.all_bytes()?),
        "header" => Header(words.all_bytes()?),
        "build" => Build(words.record()?),
        "verify" => Verify(words.record()?, words.bytes()?),
        "wheader" => WriteHeader(words.record()?, words.bytes()?),
        "max" => MostRequests(words.record()?, words.number("packet size")?),
        "read" => Read(words.all_bytes()?),
        "write" => Write(nak(words)?, words.bytes()?),
        "wsized" => WriteSized(nak(words)?, words.bytes()?),
        "reserve" => Reserve(words.record()?, count(words)?, words.bytes()?),
        "finish" => Finish(
            words.record()?,
            count(words)?,
            words.scope()?,
            words.bytes()?,
        ),
        "compare" => Compare(words.bytes()?, nak(words)?),
        "eof" => Eof(words.all_bytes()?),
        "ack" => Ack(words.all_bytes()?),
        "metadata" => Metadata(words.all_bytes()?),
        "weof" => WriteEof(words.record()?, eof(words)?, words.bytes()?),
        "wack" => WriteAck(words.record()?, ack(words)?, words.bytes()?),
        "wmetadata" => WriteMetadata(words.record()?, metadata(words)?, words.bytes()?),
        "receive" => Receive(words.fragments()?),
        "owed" => Owed(words.all_bytes()?),
        "differ" => Differ(words.bytes()?, words.bytes()?, words.lent()?),
        "check" => CheckPlan(task(words)?, words.numbers()?, words.numbers()?),
        "plan" => Plan(task(words)?, words.lent()?, words.lent()?),
        other => return Err(format!("command {other}")),
    })
}

fn count(words: &mut Words) -> Parsed<usize> {
    words.number("pair count")
}

fn nak(words: &mut Words) -> Parsed<Nak> {
    Ok(Nak {
        record: words.record()?,
        scope: words.scope()?,
        list: words.list()?,
    })
}

fn eof(words: &mut Words) -> Parsed<Eof> {
    Ok(Eof {
        code: words.number("condition code")?,
        sum: words.number("file checksum")?,
        size: words.number("file size")?,
        fault: words.fault()?,
    })
}

fn ack(words: &mut Words) -> Parsed<Ack> {
    Ok(Ack {
        directive: words.number("acknowledged directive")?,
        code: words.number("condition code")?,
        status: words.number("transaction status")?,
    })
}

fn metadata(words: &mut Words) -> Parsed<Metadata> {
    Ok(Metadata {
        closure: words.flag("closure flag")?,
        checksum_type: words.number("checksum type")?,
        size: words.number("file size")?,
        source_name: words.bytes()?,
        destination_name: words.bytes()?,
        option_area: words.bytes()?,
    })
}

fn task(words: &mut Words) -> Parsed<Task> {
    Ok(Task {
        record: words.record()?,
        size: words.number("packet size")?,
        scope: words.scope()?,
        received: words.numbers()?,
    })
}
