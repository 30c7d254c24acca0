//! The two drivers' answers to one command held against each other, and the count of it.
use crate::{Command, domain, refusal, show};
use std::collections::BTreeMap;
use std::fmt::{Display, Formatter, Result as Shown};

/// What two answers to one command are to each other.
#[derive(Clone, Copy, Debug, PartialEq, Eq)]
pub enum Verdict {
    /// Inside the domain, and the same: accepted (0), or refused with that number.
    Same(usize),
    Differ,
    Outside,
    /// A command that the port lacks, and says so.
    Lacking,
    /// An empty line or a comment, copied by both.
    Copied,
}

/// Inside the domain everything counts: the answer, its numbers, and the buffer after the call.
pub fn judge(command: &str, oracle: &str, port: &str) -> Verdict {
    if command.is_empty() || command.starts_with('#') {
        return same_or(oracle == port, Verdict::Copied);
    }
    if port.ends_with(show::LACKING) {
        return Verdict::Lacking;
    }
    // What the oracle calls bad is a fault of the list, and must not pass for compared.
    let Ok(command) = Command::parse(command) else {
        return Verdict::Differ;
    };
    match parts(&command, oracle, port) {
        Some((true, rust, ours)) => inside(&command, rust, ours),
        Some((false, _, ours)) => same_or(is_answer(ours), Verdict::Outside),
        None => Verdict::Differ,
    }
}

fn same_or(good: bool, verdict: Verdict) -> Verdict {
    if good { verdict } else { Verdict::Differ }
}

/// Whether the answers are compared, and both without the word for it. In the base both must have that
/// word; the answers to later commands have none.
fn parts<'a>(
    command: &Command,
    oracle: &'a str,
    port: &'a str,
) -> Option<(bool, &'a str, &'a str)> {
    if command.is_later() {
        return Some((domain::compared(command)?, oracle, port));
    }
    let (word, rust) = oracle.split_once(' ').unwrap_or((oracle, ""));
    let inside = match word {
        "in" => true,
        "out" => false,
        _ => return None,
    };
    Some((inside, rust, port.strip_prefix(word)?.strip_prefix(' ')?))
}

/// Outside the domain an answer must still be one.
fn is_answer(text: &str) -> bool {
    let kinds = ["ok ", "refused ", "not made"];
    kinds.iter().any(|kind| text.starts_with(kind))
}

fn inside(command: &Command, rust: &str, port: &str) -> Verdict {
    if rust.starts_with("ok") {
        return same_or(rust == port, Verdict::Same(0));
    }
    let (error, buf) = match rust.split_once(" buf ") {
        None => (rust, None),
        Some((error, buf)) => (error, Some(buf)),
    };
    let Some(numbers) = refusal::of_error(command, error) else {
        return Verdict::Differ;
    };
    let mut expected = show::refused(&numbers);
    if let Some(buf) = buf {
        expected += " buf ";
        expected += buf;
    }
    same_or(expected == port, Verdict::Same(numbers[0] as usize))
}

/// How many commands came to each verdict.
#[derive(Clone, Debug, Default, PartialEq, Eq)]
pub struct Count {
    /// By the documents' numbers, accepted as 0.
    pub same: BTreeMap<usize, u64>,
    pub differ: u64,
    pub outside: u64,
    pub lacking: u64,
}

impl Count {
    pub fn add(&mut self, verdict: Verdict) {
        match verdict {
            Verdict::Same(number) => *self.same.entry(number).or_default() += 1,
            Verdict::Differ => self.differ += 1,
            Verdict::Outside => self.outside += 1,
            Verdict::Lacking => self.lacking += 1,
            Verdict::Copied => (),
        }
    }

    /// Differing ones are compared too.
    pub fn compared(&self) -> u64 {
        self.same.values().sum::<u64>() + self.differ
    }
}

impl Display for Count {
    fn fmt(&self, f: &mut Formatter<'_>) -> Shown {
        let commands = self.compared() + self.outside + self.lacking;
        write!(f, "the same: accepted {}", self.same.get(&0).unwrap_or(&0))?;
        for (number, count) in self.same.range(1..) {
            write!(f, ", refused {number}: {count}")?;
        }
        write!(f, "\n{commands} commands: {} compared", self.compared())?;
        write!(f, ", {} outside the domain", self.outside)?;
        if self.lacking > 0 {
            write!(f, ", {} that the port lacks", self.lacking)?;
        }
        write!(f, ", {} differing", self.differ)
    }
}

#[cfg(test)]
mod eof_ack_metadata;

#[cfg(test)]
mod tests {
    use super::Verdict::*;
    use super::judge;
    use crate::show::LACKING;

    const READ: &str = "read 28 00 01 00 01 02 03 08 00 00";
    const WRITE: &str = "write 0 1 0 0 0 0 0 0 1 1 1 2 1 3 0 1000 none 3*ee";

    #[test]
    fn the_same_answers_are_the_same() {
        let short = "in err FromSliceTooSmall 8 9";
        assert_eq!(
            judge("read 2800010001020308", short, "in refused 1 8 9"),
            Same(1)
        );
        assert_eq!(judge(READ, short, "in refused 6 8 9"), Same(6));
        assert_eq!(judge("crc -", "in ok 65535", "in ok 65535"), Same(0));
        let rust = "in err ToSliceTooSmall 3 16 buf eeeeee";
        assert_eq!(
            judge(WRITE, rust, "in refused 11 3 16 buf eeeeee"),
            Same(11)
        );
        let directive = "in err WrongDirectiveType 6 expected Ack";
        assert_eq!(judge(READ, directive, "in refused 8 6"), Same(8));
    }

    #[test]
    fn a_wrong_answer_differs() {
        let short = "in err FromSliceTooSmall 8 9";
        for wrong in [
            "in refused 1 8 9",
            "in refused 6 8 10",
            "in refused 6 8",
            "in ok",
            "",
            "in",
        ] {
            assert_eq!(judge(READ, short, wrong), Differ, "{wrong}");
        }
        let rust = "in err ToSliceTooSmall 3 16 buf eeeeee";
        for wrong in [
            "in refused 11 3 16 buf eeeeef",
            "in refused 11 3 16",
            "in refused 11 3 17 buf eeeeee",
            "in refused 11 3 16 0 buf eeeeee",
            "out refused 11 3 16 buf eeeeee",
        ] {
            assert_eq!(judge(WRITE, rust, wrong), Differ, "{wrong}");
        }
        assert_eq!(judge("crc -", "in ok 65535", "in ok 65534"), Differ);
    }

    #[test]
    fn what_no_table_maps_differs() {
        assert_eq!(judge(READ, "in panic", "in panic"), Differ);
        let expected = "in err WrongDirectiveType 6 expected Nak";
        assert_eq!(judge(READ, expected, "in refused 8 6"), Differ);
        assert_eq!(judge("rad -", "bad command rad", "bad command rad"), Differ);
    }

    #[test]
    fn outside_the_domain_nothing_is_compared() {
        assert_eq!(judge(READ, "out panic", "out refused 6 9 16"), Outside);
        assert_eq!(judge(READ, "out panic", "in refused 6 9 16"), Differ);
        assert_eq!(judge("# text", "# text", "# text"), Copied);
        assert_eq!(judge("wsized -", "err X", LACKING), Lacking);
        assert_eq!(judge("eof -", "err X", "err X"), Differ);
        assert_eq!(judge("eof -", "err X", "bad bytes"), Differ);
    }
}
