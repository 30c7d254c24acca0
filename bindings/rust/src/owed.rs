//! What is owed after a log of NAKs heard and ranges resent.
use crate::ffi::{self, MOST_OWED, OWED_COUNT, OWED_LEN};
use crate::{Pair, Refusal};

/// What is owed after a log so far: the longest ranges of the bytes that a NAK asked for and that were not resent since.
#[derive(Clone, Debug, PartialEq, Eq)]
pub struct Owed {
    state: [u64; OWED_LEN],
}

impl Owed {
    /// Before the first entry.
    pub const fn new() -> Owed {
        Owed {
            state: [0; OWED_LEN],
        }
    }

    /// Takes the entry at that offset of the log: the offset behind it. A refused entry changes nothing.
    pub fn take(&mut self, log: &[u8], at: usize) -> Result<usize, Refusal> {
        let rest = log.get(at..).unwrap_or_default();
        let answer = ffi::owed_entry(rest, at, &mut self.state)?;
        Ok(at + answer[ffi::VALUE] as usize)
    }

    /// Takes the entries from that offset on, until the log's end or a refusal: the offset where it stands, behind the
    /// last entry that was taken, and why no further.
    pub fn run(&mut self, log: &[u8], from: usize) -> (usize, Result<(), Refusal>) {
        ffi::owed_run(log, from, &mut self.state)
    }

    /// The ranges that are owed, in rising order.
    pub fn ranges(&self) -> impl ExactSizeIterator<Item = Pair> + '_ {
        let count = MOST_OWED.min(self.state[OWED_COUNT] as usize);
        let pairs = self.state[..2 * count].chunks_exact(2);
        pairs.map(|pair| Pair {
            start: pair[0],
            end: pair[1],
        })
    }
}

impl Default for Owed {
    fn default() -> Owed {
        Owed::new()
    }
}
