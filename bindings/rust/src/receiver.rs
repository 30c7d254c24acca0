//! NAKs from fragments of a stream in which they are laid end to end.
use crate::ffi::{self, WINDOW_LEN};
use crate::{Nak, Refusal};

/// A receiver: a window, and how many bytes of the next PDU are in it. However the stream is cut into fragments, it
/// gives the same NAKs, the same refusal and is left the same.
#[derive(Clone, Debug, PartialEq, Eq)]
pub struct Receiver {
    window: [u8; WINDOW_LEN],
    filled: usize,
}

impl Receiver {
    /// A fresh one.
    pub const fn new() -> Receiver {
        Receiver {
            window: [0; WINDOW_LEN],
            filled: 0,
        }
    }

    /// Fresh again, which is the only way on after a refusal.
    pub fn reset(&mut self) {
        *self = Receiver::new();
    }

    /// How many bytes of the next PDU it holds.
    pub fn filled(&self) -> usize {
        self.filled
    }

    /// Takes bytes off the fragment's front, up to the byte that completes a NAK, and gives that; `None` where more is
    /// wanted, and the fragment is used up. A refusal is repeated, and takes no byte, until the receiver is reset.
    pub fn take(&mut self, fragment: &mut &[u8]) -> Result<Option<Nak<'_>>, Refusal> {
        let (taken, answer) = ffi::receive(&mut self.window, &mut self.filled, fragment);
        *fragment = &fragment[taken..];
        match answer {
            Ok(answer) => Ok(Some(Nak::of(&answer, &self.window))),
            // No receiver refuses with 1: it says that more is wanted.
            Err(Refusal::FromSliceTooSmall { .. }) => Ok(None),
            Err(refusal) => Err(refusal),
        }
    }
}

impl Default for Receiver {
    fn default() -> Receiver {
        Receiver::new()
    }
}
