//! The comparer's own tests on EOFs, ACKs and Metadata PDUs: command, the Rust's answer, the port's, and the verdict.
use super::Verdict::{self, *};
use super::judge;

type Lines = &'static [(&'static str, &'static str, &'static str, Verdict)];

fn judged(lines: Lines) {
    for (command, rust, port, verdict) in lines {
        assert_eq!(judge(command, rust, port), *verdict, "{command}: {port}");
    }
}

/// Condition codes 0, 12 and 9; then 4, with a fault location of width 3, and with one that E cuts.
const EOF: &str = "eof 20000a0001020304 00 00000007 00000009";
const EOF_12: &str = "eof 20000a0001020304 c0 00000007 00000009";
const EOF_9: &str = "eof 20000a0001020304 90 00000007 00000009";
const FAULT_OF_3: &str = "eof 20000f0001020304 40 00000007 00000009 0603 010203";
const CUT_FAULT: &str = "eof 20000c0001020304 40 00000007 00000009 0601 05";
const SHOWN_EOF: &str = "ok 0 0 0 0 0 0 0 10 1 1 1 2 1 3 code 0 sum 7 size 9 fault -";
const WRITE_EOF: &str = "weof 0 1 0 0 0 0 0 0 1 1 1 2 1 3 0 7 9 - 2*ee";

/// Of directive 6, the second with condition code 12; then of an EOF, towards the receiver.
const ACK_OF_6: &str = "ack 2800030001020306 60 01";
const ACK_BOTH: &str = "ack 2800030001020306 60 c1";
const ACK_FORWARD: &str = "ack 2000030001020306 40 01";
const WRITE_ACK: &str = "wack 0 1 0 0 0 0 0 0 1 1 1 2 1 3 6 0 1 2*ee";

#[rustfmt::skip]
const EOFS_AND_ACKS: Lines = &[
    (EOF, SHOWN_EOF, SHOWN_EOF, Same(0)),
    (EOF_12, "err InvalidConditionCode 12", "refused 16", Same(16)),
    (FAULT_OF_3, "err TlvLv InvalidValueLength 3", "refused 28", Same(28)),
    (EOF, "err InvalidDirectiveType 10 expected Eof", "refused 7 10", Same(7)),
    (EOF, "err WrongDirectiveType 6 expected Eof", "refused 8 6", Same(8)),
    (WRITE_EOF, "err ToSliceTooSmall 2 17 buf eeee", "refused 11 2 17 buf eeee", Same(11)),
    (ACK_OF_6, "err InvalidDirectiveType 6 expected none", "refused 17", Same(17)),
    (WRITE_ACK, "err InvalidAckedDirectiveCodeError 6 buf eeee", "refused 17 buf eeee", Same(17)),
    // Where C-01 departs from the Rust.
    (EOF_9, "err InvalidConditionCode 9", "ok 0", Outside),
    (CUT_FAULT, "panic", "refused 28", Outside),
    (ACK_BOTH, "err InvalidDirectiveType 6 expected none", "refused 16", Outside),
    (ACK_FORWARD, "ok 0 1 0", "ok 0 0 0", Outside),
];

#[rustfmt::skip]
const WRONG_EOFS_AND_ACKS: Lines = &[
    (EOF, SHOWN_EOF, "ok 0 0 0 0 0 0 0 10 1 1 1 2 1 3 code 0 sum 7 size 9 fault 1:5", Differ),
    (EOF, SHOWN_EOF, "in ok 0 0 0 0 0 0 0 10 1 1 1 2 1 3 code 0 sum 7 size 9 fault -", Differ),
    (EOF, SHOWN_EOF, "refused 28", Differ),
    (EOF, "panic", "refused 28", Differ),
    (EOF_12, "err InvalidConditionCode 12", "refused 16 12", Differ),
    (EOF_12, "err InvalidConditionCode 12", "refused 17", Differ),
    (FAULT_OF_3, "err TlvLv InvalidValueLength 3", "refused 3 3", Differ),
    (EOF, "err InvalidDirectiveType 10 expected Nak", "refused 7 10", Differ),
    (EOF, "err WrongDirectiveType 6 expected Ack", "refused 8 6", Differ),
    (WRITE_EOF, "err ToSliceTooSmall 2 17 buf eeee", "refused 11 2 17 buf eeef", Differ),
    (ACK_OF_6, "err TlvLv InvalidValueLength 3", "refused 28", Differ),
    // Outside the domain too.
    (EOF_9, "err InvalidConditionCode 9", "stray 0 1", Differ),
    (CUT_FAULT, "panic", "panic", Differ),
    (ACK_FORWARD, "ok 0 1 0", "", Differ),
];

/// Two empty names; checksum type 4; names that E cuts, and an option; a name of 256 bytes to be written.
const METADATA: &str = "metadata 2000080001020307 00 00000009 00 00";
const METADATA_4: &str = "metadata 2000080001020307 04 00000009 00 00";
const CUT_NAME: &str = "metadata 2000080001020307 00 00000009 00 05 6162636465";
const CUT_OPTION: &str = "metadata 20000b0001020307 00 00000009 00 00 020561";
const SHOWN_METADATA: &str =
    "ok 0 0 0 0 0 0 0 8 1 1 1 2 1 3 closure 0 type 0 size 9 names - - options - walked";
const LONG_NAME: &str = "wmetadata 0 0 0 0 0 0 0 0 1 1 1 2 1 3 0 3 9 256*61 62 - 2*ee";
const CUT_LENT: &str = "wmetadata 0 0 0 0 0 0 0 0 1 1 1 2 1 3 0 3 9 61 62 0205 2*ee";

#[rustfmt::skip]
const METADATAS: Lines = &[
    (METADATA, SHOWN_METADATA, SHOWN_METADATA, Same(0)),
    (METADATA_4, "err InvalidChecksumType 4", "refused 30", Same(30)),
    (METADATA, "err InvalidDirectiveType 10 expected Metadata", "refused 7 10", Same(7)),
    (METADATA, "err WrongDirectiveType 6 expected Metadata", "refused 8 6", Same(8)),
    (LONG_NAME, "err TlvLvDataTooLargeError 256 buf eeee", "refused 31 buf eeee", Same(31)),
    // Where C-11 departs from the Rust.
    (CUT_NAME, "panic", "refused 25 14", Outside),
    (CUT_OPTION, "ok 0", "refused 25 15", Outside),
    (CUT_LENT, "err ToSliceTooSmall 2 19 buf eeee", "refused 25 0 buf eeee", Outside),
];

#[rustfmt::skip]
const WRONG_METADATAS: Lines = &[
    (METADATA, SHOWN_METADATA, "ok 0 0 0 0 0 0 0 8 1 1 1 2 1 3 closure 1 type 0 size 9 names - - options - walked", Differ),
    (METADATA, SHOWN_METADATA, "refused 25 14", Differ),
    (METADATA_4, "err InvalidChecksumType 4", "refused 30 4", Differ),
    (METADATA, "err WrongDirectiveType 6 expected Eof", "refused 8 6", Differ),
    (LONG_NAME, "err TlvLvDataTooLargeError 256 buf eeee", "refused 31 buf eeef", Differ),
    // Outside the domain too.
    (CUT_NAME, "panic", "panic", Differ),
];

#[test]
fn metadata_pdus_are_compared_by_the_command_alone() {
    judged(METADATAS);
}

#[test]
fn a_wrong_metadata_pdu_differs() {
    judged(WRONG_METADATAS);
}

#[test]
fn eofs_and_acks_are_compared_by_the_command_alone() {
    judged(EOFS_AND_ACKS);
}

#[test]
fn a_wrong_eof_or_ack_differs() {
    judged(WRONG_EOFS_AND_ACKS);
}
