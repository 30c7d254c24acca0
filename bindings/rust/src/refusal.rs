//! The refusals: a name for each number of the table in `include/cfdp.h`, and each in words.
use core::fmt;

/// Why there is no other answer. The names are those of the proved table (`crates/fields`), which has them
/// from the crate spacepackets where that has one.
#[derive(Clone, Copy, Debug, PartialEq, Eq, Hash)]
#[non_exhaustive]
#[allow(missing_docs)]
pub enum Refusal {
    /// 1: so many bytes are there, and so many are needed.
    FromSliceTooSmall { found: usize, expected: usize },
    /// 2
    CfdpVersionMissmatch(u8),
    /// 3
    InvalidEntityLen(u8),
    /// 4
    InvalidTransactionSeqNumLen(u8),
    /// 5: the PDU's last 16 bits.
    Checksum(u16),
    /// 6: where the declared data stops, and where it would have to.
    DataFieldTooSmall { stop: usize, expected: usize },
    /// 7: its code.
    InvalidDirectiveType(u8),
    /// 8: its code, which says whose reader to ask.
    WrongDirectiveType(u8),
    /// 9
    InvalidStartOrEndOfScope { start: u64, end: u64 },
    /// 10
    TooManySegmentRequests { found: usize, most: usize },
    /// 11: so many bytes are lent, and so many are needed.
    ToSliceTooSmall { found: usize, expected: usize },
    /// 12
    OddCount(usize),
    /// 13
    SourceDestIdLenMissmatch { source: u8, destination: u8 },
    /// 14
    ValueTooLargeForWidth { value: u64, width: u8 },
    /// 15
    TooSmallForPduHeader,
    /// 16
    InvalidConditionCode,
    /// 17
    InvalidAckedDirectiveCode,
    /// 18 of a comparison: which NAK, and which of its pairs, each from 1.
    PairOutOfOrder { file: u8, pair: usize },
    /// 18 of a log: the offset of the entry.
    EntryOutOfOrder(usize),
    /// 19
    TransactionsDiffer,
    /// 20
    NoRoom,
    /// 21
    NotADirective,
    /// 22
    PduTooLarge,
    /// 23
    RangesOutOfOrder,
    /// 24
    NoRequestFits,
    /// 25: the offset of its first byte.
    FieldCut(usize),
    /// 26: the offset of the entry.
    InvalidEntry(usize),
    /// 27
    TooManyRanges,
    /// 28
    InvalidFaultLocation,
    /// 29
    FileSizeTooLarge,
    /// 30
    InvalidChecksumType,
    /// 31
    NameTooLong,
    /// 32
    DataFieldTooLarge,
    /// A number that this crate has no name for: the library is newer.
    Unknown(u64),
}

/// By number; 0 is no refusal.
const TEXT: [&str; 33] = [
    "accepted",
    "buffer short",
    "version is not 1",
    "entity width is not 1, 2, 4 or 8",
    "sequence number width is not 1, 2, 4 or 8",
    "checksum is not zero",
    "declared data short",
    "unknown directive",
    "another directive than the one that is read",
    "scope above 4294967295 in a normal NAK",
    "more pairs than fit",
    "output buffer short",
    "odd count of numbers, which are no pairs",
    "source and destination widths differ",
    "value does not fit its width",
    "packet too small for a NAK",
    "condition code is reserved",
    "acknowledged directive is neither EOF nor Finished",
    "pair or range out of order",
    "NAKs of different transactions",
    "no room in the lent numbers",
    "file data, not a directive",
    "PDU longer than the receiver's window",
    "ranges or scope out of order, or no state of a log",
    "a byte is missing and no request fits the packet",
    "name or option runs past its end",
    "log entry cut, of an unknown tag or of a wrong length",
    "more ranges owed than are kept",
    "fault location is not one entity identifier",
    "file size above 4294967295 without the large file flag",
    "checksum type is not 0, 1, 2, 3 or 15",
    "name longer than 255 bytes",
    "data field longer than 65535 bytes",
];

impl Refusal {
    /// The refusal of a number and its values, as the library shows it; a value that it does not have is 0.
    #[cold]
    pub fn from_numbers(number: u64, first: u64, second: u64) -> Refusal {
        use Refusal::*;
        let (one, two) = (first as usize, second as usize);
        match number {
            1 => FromSliceTooSmall {
                found: one,
                expected: two,
            },
            2 => CfdpVersionMissmatch(first as u8),
            3 => InvalidEntityLen(first as u8),
            4 => InvalidTransactionSeqNumLen(first as u8),
            5 => Checksum(first as u16),
            6 => DataFieldTooSmall {
                stop: one,
                expected: two,
            },
            7 => InvalidDirectiveType(first as u8),
            8 => WrongDirectiveType(first as u8),
            9 => InvalidStartOrEndOfScope {
                start: first,
                end: second,
            },
            10 => TooManySegmentRequests {
                found: one,
                most: two,
            },
            11 => ToSliceTooSmall {
                found: one,
                expected: two,
            },
            12 => OddCount(one),
            13 => SourceDestIdLenMissmatch {
                source: first as u8,
                destination: second as u8,
            },
            14 => ValueTooLargeForWidth {
                value: first,
                width: second as u8,
            },
            15 => TooSmallForPduHeader,
            16 => InvalidConditionCode,
            17 => InvalidAckedDirectiveCode,
            // Pairs are counted from 1, so that 0 is no pair's number.
            18 if second == 0 => EntryOutOfOrder(one),
            18 => PairOutOfOrder {
                file: first as u8,
                pair: two,
            },
            19 => TransactionsDiffer,
            20 => NoRoom,
            21 => NotADirective,
            22 => PduTooLarge,
            23 => RangesOutOfOrder,
            24 => NoRequestFits,
            25 => FieldCut(one),
            26 => InvalidEntry(one),
            27 => TooManyRanges,
            28 => InvalidFaultLocation,
            29 => FileSizeTooLarge,
            30 => InvalidChecksumType,
            31 => NameTooLong,
            32 => DataFieldTooLarge,
            _ => Unknown(number),
        }
    }

    /// Its number and values, as the library shows it: what `from_numbers` takes.
    pub fn numbers(&self) -> (u64, u64, u64) {
        use Refusal::*;
        match *self {
            FromSliceTooSmall { found, expected } => (1, found as u64, expected as u64),
            CfdpVersionMissmatch(version) => (2, version.into(), 0),
            InvalidEntityLen(width) => (3, width.into(), 0),
            InvalidTransactionSeqNumLen(width) => (4, width.into(), 0),
            Checksum(last) => (5, last.into(), 0),
            DataFieldTooSmall { stop, expected } => (6, stop as u64, expected as u64),
            InvalidDirectiveType(code) => (7, code.into(), 0),
            WrongDirectiveType(code) => (8, code.into(), 0),
            InvalidStartOrEndOfScope { start, end } => (9, start, end),
            TooManySegmentRequests { found, most } => (10, found as u64, most as u64),
            ToSliceTooSmall { found, expected } => (11, found as u64, expected as u64),
            OddCount(count) => (12, count as u64, 0),
            SourceDestIdLenMissmatch {
                source,
                destination,
            } => (13, source.into(), destination.into()),
            ValueTooLargeForWidth { value, width } => (14, value, width.into()),
            TooSmallForPduHeader => (15, 0, 0),
            InvalidConditionCode => (16, 0, 0),
            InvalidAckedDirectiveCode => (17, 0, 0),
            PairOutOfOrder { file, pair } => (18, file.into(), pair as u64),
            EntryOutOfOrder(at) => (18, at as u64, 0),
            TransactionsDiffer => (19, 0, 0),
            NoRoom => (20, 0, 0),
            NotADirective => (21, 0, 0),
            PduTooLarge => (22, 0, 0),
            RangesOutOfOrder => (23, 0, 0),
            NoRequestFits => (24, 0, 0),
            FieldCut(at) => (25, at as u64, 0),
            InvalidEntry(at) => (26, at as u64, 0),
            TooManyRanges => (27, 0, 0),
            InvalidFaultLocation => (28, 0, 0),
            FileSizeTooLarge => (29, 0, 0),
            InvalidChecksumType => (30, 0, 0),
            NameTooLong => (31, 0, 0),
            DataFieldTooLarge => (32, 0, 0),
            Unknown(number) => (number, 0, 0),
        }
    }

    /// What it says, without its values.
    pub fn text(&self) -> &'static str {
        usize::try_from(self.numbers().0)
            .ok()
            .and_then(|n| TEXT.get(n))
            .unwrap_or(&"no such refusal")
    }
}

impl fmt::Display for Refusal {
    fn fmt(&self, f: &mut fmt::Formatter<'_>) -> fmt::Result {
        use Refusal::*;
        f.write_str(self.text())?;
        match self {
            FromSliceTooSmall { found, expected } | ToSliceTooSmall { found, expected } => {
                write!(f, ": {found} bytes are there, {expected} are needed")
            }
            CfdpVersionMissmatch(value)
            | InvalidEntityLen(value)
            | InvalidTransactionSeqNumLen(value)
            | InvalidDirectiveType(value)
            | WrongDirectiveType(value) => write!(f, ": {value}"),
            Checksum(last) => write!(f, ": the PDU ends in {last:#06x}"),
            DataFieldTooSmall { stop, expected } => {
                write!(f, ": it stops at {stop}, {expected} is needed")
            }
            InvalidStartOrEndOfScope { start, end } => write!(f, ": {start} to {end}"),
            TooManySegmentRequests { found, most } => write!(f, ": {found}, at most {most}"),
            OddCount(count) => write!(f, ": {count}"),
            SourceDestIdLenMissmatch {
                source,
                destination,
            } => write!(f, ": {source} and {destination}"),
            ValueTooLargeForWidth { value, width } => write!(f, ": {value} in {width}"),
            PairOutOfOrder { file, pair } => write!(f, ": NAK {file}, pair {pair}"),
            EntryOutOfOrder(at) | FieldCut(at) | InvalidEntry(at) => write!(f, ": at {at}"),
            Unknown(number) => write!(f, ": {number}"),
            _ => Ok(()),
        }
    }
}

impl core::error::Error for Refusal {}
