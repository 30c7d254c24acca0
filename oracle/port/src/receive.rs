//! Fragments of a stream, offered to the port's receiver (C-07 of document 02).
use crate::answer::{Said, ask};
use crate::base;
use crate::ffi::{self, WINDOW_LEN, Window};
use tools::places::*;
use tools::show;

/// How the library shows that more is wanted: 1 and no values, which no receiver refuses with.
const MORE: &str = "refused 1 0 0";

/// A window, how many bytes of the next PDU are in it, and the text of each call.
struct Receiver {
    window: Window,
    filled: usize,
    calls: Vec<String>,
}

/// What a call gave.
enum Gave {
    More,
    Nak(String),
    Refused(String),
}

impl Receiver {
    /// How many bytes were taken, and what was given. The requests of a NAK are walked in the window.
    fn call(&mut self, fragment: &[u8]) -> Result<(usize, Gave), String> {
        let mut taken = 0;
        let asked = ask(ANSWER_NAK_PAIRS, |a| {
            taken = ffi::receive(&mut self.window, &mut self.filled, fragment, a)
        });
        if fragment.len() < taken {
            return Err(format!("stray {taken} taken"));
        }
        let gave = match asked {
            Ok(answer) => Gave::Nak(base::shown(&answer, &self.window)?),
            Err(text) if text == MORE => Gave::More,
            Err(text) if text.starts_with("refused") => Gave::Refused(text),
            Err(text) => return Err(text),
        };
        Ok((taken, gave))
    }

    /// Offers a fragment until it is used up or refused, an empty one once.
    fn offer(&mut self, mut fragment: &[u8]) -> Result<(), String> {
        loop {
            let (taken, gave) = self.call(fragment)?;
            fragment = &fragment[taken..];
            // More is wanted only of a fragment that is used up, and a NAK has its last byte.
            match gave {
                Gave::More if !fragment.is_empty() => return Err(format!("stray {taken} taken")),
                Gave::Nak(_) if taken == 0 => return Err("stray 0 taken".to_string()),
                _ => (),
            }
            let (text, refused) = match gave {
                Gave::More => ("more".to_string(), false),
                Gave::Nak(read) => (read.replacen("ok", "nak", 1), false),
                Gave::Refused(text) => (text, true),
            };
            self.calls.push(format!("{taken} {text}"));
            if refused || fragment.is_empty() {
                return Ok(());
            }
        }
    }
}

pub fn receive(fragments: &[Vec<u8>]) -> Said {
    let mut receiver = Receiver {
        window: [0; WINDOW_LEN],
        filled: 0,
        calls: Vec::new(),
    };
    for fragment in fragments {
        receiver.offer(fragment)?;
    }
    let Receiver {
        window,
        filled,
        calls,
    } = receiver;
    Ok(show::received(&calls, filled, ffi::checksum(&window)))
}
