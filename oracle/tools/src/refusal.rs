//! The Rust's errors as the documents' refusals, by the table of README.md.
use crate::Command;

/// The refusal's number and its values for an `err ...` of the oracle's; `None` for a text that the
/// table lacks.
pub fn of_error(command: &Command, text: &str) -> Option<Vec<u64>> {
    let mut words = text.strip_prefix("err ")?.split(' ');
    let [unknown, wrong] = expected(command);
    // The number, how many of the error's numbers are its values, how many are not, and what follows.
    let (number, kept, left, rest) = match words.next()? {
        "FromSliceTooSmall" => (1, 2, 0, ""),
        "CfdpVersionMissmatch" => (2, 1, 0, ""),
        "InvalidEntityLen" => (3, 1, 0, ""),
        "InvalidTransactionSeqNumLen" => (4, 1, 0, ""),
        "Checksum" => (5, 1, 0, ""),
        "InvalidDirectiveType" if text.ends_with(ACKNOWLEDGED) => (17, 0, 1, ACKNOWLEDGED),
        "InvalidDirectiveType" => (7, 1, 0, unknown),
        "WrongDirectiveType" => (8, 1, 0, wrong),
        "InvalidStartOrEndOfScopeError" => (9, 2, 0, ""),
        "ToSliceTooSmall" => (11, 2, 0, ""),
        "SourceDestIdLenMissmatch" => (13, 2, 0, ""),
        "TooSmallForPduHeaderError" => (15, 0, 0, ""),
        "InvalidConditionCode" => (16, 0, 1, ""),
        "InvalidAckedDirectiveCodeError" => (17, 0, 1, ""),
        "InvalidChecksumType" => (30, 0, 1, ""),
        "TlvLvDataTooLargeError" => (31, 0, 1, ""),
        // Whatever is wrong with the fault location.
        "TlvLv" => return matches!(command, Command::Eof(_)).then(|| vec![28]),
        _ => return None,
    };
    let mut numbers = vec![number];
    for _ in 0..kept + left {
        numbers.push(words.next()?.parse().ok()?);
    }
    numbers.truncate(1 + kept);
    // The length that was found tells 1 and 6 apart.
    if number == 1 && numbers[1] != length_read(command) as u64 {
        numbers[0] = 6;
    }
    words.eq(rest.split_terminator(' ')).then_some(numbers)
}

/// How an error ends that speaks of the acknowledged directive.
const ACKNOWLEDGED: &str = "expected none";

/// How a reader's errors end on a directive that is unknown, and on one that is not its own.
fn expected(command: &Command) -> [&'static str; 2] {
    match command {
        Command::Eof(_) => ["expected Eof"; 2],
        Command::Ack(_) => ["expected Ack"; 2],
        Command::Metadata(_) => ["expected Metadata"; 2],
        _ => ["expected Nak", "expected Ack"],
    }
}

/// The length of the buffer that a command reads; 0 for one that reads none.
fn length_read(command: &Command) -> usize {
    use Command::*;
    match command {
        Header(bytes) | Read(bytes) | Verify(_, bytes) | Compare(bytes, _) => bytes.len(),
        Eof(bytes) | Ack(bytes) | Metadata(bytes) => bytes.len(),
        _ => 0,
    }
}
