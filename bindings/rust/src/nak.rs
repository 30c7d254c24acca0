//! The NAK: read and its requests walked, written, reserved and finished, counted, compared.
use crate::ffi::{self, Answer};
use crate::{Header, Refusal, Written};

/// First byte, and first byte behind: a scope, or a request. In a NAK that is written, requests of `u32` are
/// normal and those of `u64` large.
#[derive(Clone, Copy, Debug, Default, PartialEq, Eq, PartialOrd, Ord, Hash)]
#[repr(C)]
#[allow(missing_docs)]
pub struct Pair<T = u64> {
    pub start: T,
    pub end: T,
}

/// The requests of a NAK that is written.
#[derive(Clone, Copy, Debug, PartialEq, Eq)]
pub enum Pairs<'a> {
    /// No list; the header's large file flag stands.
    None,
    /// Numbers of 4 bytes; they clear the flag, even none of them.
    Normal(&'a [Pair<u32>]),
    /// Numbers of 8 bytes; they set it.
    Large(&'a [Pair<u64>]),
}

/// A NAK that was read.
#[derive(Clone, Copy, Debug, PartialEq, Eq)]
pub struct Nak<'a> {
    /// As it stands in the bytes.
    pub header: Header,
    /// What part of the file it speaks of.
    pub scope: Pair,
    /// The bytes of its requests, where they were read.
    pub area: &'a [u8],
    /// How many whole requests these hold.
    pub count: usize,
    /// E, where the data stops.
    pub data_end: usize,
    /// P, where the next PDU starts.
    pub pdu_length: usize,
}

impl<'a> Nak<'a> {
    /// Reads a NAK at the front of the bytes, whatever follows it.
    #[inline]
    pub fn read(bytes: &'a [u8]) -> Result<Nak<'a>, Refusal> {
        let answer = ffi::nak_read(bytes)?;
        Ok(Nak::of(&answer, bytes))
    }

    /// The NAK of an answer, which stands in these bytes.
    #[inline]
    pub(crate) fn of(answer: &Answer, bytes: &'a [u8]) -> Nak<'a> {
        let header = Header::of(answer);
        let area = answer[ffi::NAK_AREA] as usize;
        let data_end = answer[ffi::NAK_STOP] as usize;
        Nak {
            header,
            scope: Pair {
                start: answer[ffi::NAK_START],
                end: answer[ffi::NAK_END],
            },
            area: &bytes[area..data_end],
            count: answer[ffi::NAK_PAIRS] as usize,
            data_end,
            pdu_length: header.behind(data_end),
        }
    }

    /// Its requests, in their order.
    #[inline]
    pub fn pairs(&self) -> Requests<'a> {
        Requests {
            area: self.area,
            large: self.header.large,
            next: 0,
            count: self.count,
        }
    }

    /// Copies its requests, as many as there is room for: how many.
    pub fn copy(&self, pairs: &mut [Pair]) -> usize {
        ffi::nak_pairs(self.area, self.header.large, pairs)
    }

    /// Writes a NAK.
    #[inline]
    pub fn write(
        header: &Header,
        scope: Pair,
        pairs: Pairs,
        buf: &mut [u8],
    ) -> Result<Written, Refusal> {
        let answer = match pairs {
            Pairs::None => ffi::nak_write(header, scope, buf),
            Pairs::Normal(pairs) => ffi::nak_write_normal(header, scope, pairs, buf),
            Pairs::Large(pairs) => ffi::nak_write_large(header, scope, pairs, buf),
        };
        answer.map(|answer| Written::of(&answer))
    }

    /// How many requests a NAK in a packet of that many bytes holds at most, by the header's large file flag.
    pub fn most(header: &Header, packet: usize) -> Result<usize, Refusal> {
        Ok(ffi::nak_most(header, packet)?[ffi::VALUE] as usize)
    }

    /// Whether the NAK at the front of the bytes is the one that `write` would write.
    pub fn same(bytes: &[u8], header: &Header, scope: Pair, pairs: Pairs) -> Result<bool, Refusal> {
        let answer = match pairs {
            Pairs::None => ffi::nak_compare(bytes, header, scope),
            Pairs::Normal(pairs) => ffi::nak_compare_normal(bytes, header, scope, pairs),
            Pairs::Large(pairs) => ffi::nak_compare_large(bytes, header, scope, pairs),
        };
        answer.map(|answer| answer[ffi::VALUE] != 0)
    }
}

/// A walk over the requests of a NAK.
#[derive(Clone, Debug)]
pub struct Requests<'a> {
    area: &'a [u8],
    large: bool,
    next: usize,
    count: usize,
}

impl Iterator for Requests<'_> {
    type Item = Pair;

    #[inline]
    fn next(&mut self) -> Option<Pair> {
        let pair = ffi::nak_pair(self.area, self.large, self.next)?;
        self.next += 1;
        Some(pair)
    }

    fn nth(&mut self, n: usize) -> Option<Pair> {
        self.next = self.next.saturating_add(n).min(self.count);
        self.next()
    }

    fn size_hint(&self) -> (usize, Option<usize>) {
        let left = self.count - self.next;
        (left, Some(left))
    }
}

impl ExactSizeIterator for Requests<'_> {}
impl core::iter::FusedIterator for Requests<'_> {}

/// Room for the requests of a NAK. Their bytes, big-endian, go from `area` up to `stop` of the buffer.
#[derive(Clone, Copy, Debug, PartialEq, Eq)]
#[allow(missing_docs)]
pub struct Reserved {
    pub header: Header,
    pub count: usize,
    pub area: usize,
    pub stop: usize,
    /// That the NAK will have.
    pub pdu_length: usize,
}

impl Reserved {
    /// Reserves room for so many requests, and changes no byte.
    pub fn new(header: &Header, count: usize, buf: &[u8]) -> Result<Reserved, Refusal> {
        let answer = ffi::nak_reserve(header, count, buf)?;
        Ok(Reserved {
            header: Header::of(&answer),
            count: answer[ffi::RESERVED_PAIRS] as usize,
            area: answer[ffi::RESERVED_AREA] as usize,
            stop: answer[ffi::RESERVED_STOP] as usize,
            pdu_length: answer[ffi::RESERVED_LENGTH] as usize,
        })
    }

    /// Writes the NAK around the requests that stand in the room by now.
    pub fn finish(&self, scope: Pair, buf: &mut [u8]) -> Result<Written, Refusal> {
        ffi::nak_finish(&self.header, self.count, scope, buf).map(|answer| Written::of(&answer))
    }
}
