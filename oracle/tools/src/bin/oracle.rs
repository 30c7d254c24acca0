//! The oracle: the Rust behind a line protocol. One command on each line of standard input, one
//! line of answer for each on standard output. A line that is empty or begins with '#' is copied.
//! The port's driver (../port) speaks the same protocol; where the two differ is said below.
//!
//! # Words
//!
//! ```text
//! REC    a header record, 14 numbers, in this order:
//!            1 PDU type, 2 direction, 3 transmission mode, 4 CRC flag, 5 large file flag,
//!            6 segmentation control, 7 segment metadata flag  (each 0 or 1, its bit on the link)
//!            8 data field length d  (0 to 65,535)
//!            9 width, 10 value of the source entity ID
//!            11 width, 12 value of the sequence number
//!            13 width, 14 value of the destination entity ID
//! BYTES  hex digits, two for each byte; or '-' for no bytes; or LEN*XX, LEN copies of byte XX.
//!        Where BYTES is all that a command takes, blanks may stand inside the hex.
//! LIST   'none'; or 'n:' (normal, 32 bits) or 'l:' (large, 64 bits) and the lent numbers, start
//!        and end by turns, with commas between them, perhaps none, perhaps odd in count; or 'n:'
//!        or 'l:' and COUNT*A,B, the numbers A,B COUNT times.
//! FAULT  '-' for none, or WIDTH:VALUE.
//! NUMBERS  numbers with commas between them, or '-' for none.
//! ```
//!
//! All other words are decimal numbers. LEN and COUNT of these forms are at most 1,048,576.
//!
//! # Commands of the base
//!
//! ```text
//! crc BYTES                          the checksum, by the Rust's three forms, which must agree
//! header BYTES                       PduHeader::from_bytes
//! build REC                          CommonPduConfig::new and PduHeader::new_generic
//! verify REC BYTES                   PduHeader::verify_length_and_checksum
//! wheader REC BYTES                  PduHeader::write_to_slice
//! read BYTES                         NakPduReader::new and all that it shows
//! write REC START END LIST BYTES     NakPduCreator::new and write_to_slice
//! reserve REC COUNT BYTES            NakPduCreatorWithReservedSeqReqsBuf::new
//! finish REC COUNT START END BYTES   the same, and finish
//! max REC SIZE                       calculate_max_segment_requests
//! compare BYTES REC START END LIST   NakPduReader == NakPduCreator
//! ```
//!
//! The BYTES at the end of a command that writes are the lent buffer before the call. One command
//! is for the Rust alone, `wsized`: `write` through new_no_segment_requests, new_normal_file_size
//! or new_large_file_size, by the list's kind.
//!
//! # Commands of the later requests
//!
//! ```text
//! eof BYTES                                          EofPdu::from_bytes
//! ack BYTES                                          AckPdu::from_bytes
//! metadata BYTES                                     MetadataPduReader::new
//! weof REC CODE SUM SIZE FAULT BYTES                 EofPdu::new and write_to_slice
//! wack REC DIRECTIVE CODE STATUS BYTES               AckPdu::new and write_to_slice
//! wmetadata REC CLOSURE TYPE SIZE NAME NAME OPTIONS BYTES
//!                                                    MetadataPduCreator::new and write_to_slice
//! ```
//!
//! NAME, NAME (source, destination) and OPTIONS are written as BYTES are. The port's driver lacks
//! wsized: it answers 'bad' and the reason.
//!
//! Some are for the port alone, and the oracle answers them with 'bad' and the reason:
//!
//! ```text
//! receive BYTES BYTES ..             a receiver in the fresh state (document 02, C-07) is offered each
//!                                    fragment in calls until it is used up or refused, an empty one once
//! differ BYTES BYTES LENT            two NAKs compared (document 02, C-03); LENT is how many numbers
//!                                    are lent for the ranges, each of them 7 before the call
//! owed BYTES                         a log of NAKs heard and ranges resent, run from the fresh state
//!                                    (document 02, C-13)
//! check REC SIZE START END NUMBERS NUMBERS NUMBERS
//!                                    a plan of NAKs checked (C-09): received ranges, requests, NAKs
//! plan REC SIZE START END NUMBERS LENT LENT
//!                                    a plan of NAKs made: received ranges; how many numbers are lent for
//!                                    requests, and for NAKs
//! ```
//!
//! # Answers
//!
//! The answer to a command of the base begins with 'in' or 'out': whether document 01 compares port
//! and Rust on this command, judged from the command alone (src/domain). The answer to a later
//! command, and to wsized, has no such word. Then comes one of:
//!
//! ```text
//! ok ...                 accepted; the forms are below
//! err NAME NUMBERS       the Rust's error: its name, its numbers as it holds them; for a directive
//!                        also 'expected' and the one expected
//! refused NO NUMBERS     the port's driver only: the documents' number and the numbers it returns
//! panic                  the Rust panicked
//! not made               this side's types hold no such value: in the Rust an odd list or a code that
//!                        its list lacks, in the port a width or a code above 255 or a status above 3
//! stray NUMBERS          the port's driver only: its library's numbers are of no form that the
//!                        library's header file gives; always a fault
//! err forms differ       the Rust's three checksums, or the port's two walks over the requests, do
//!                        not agree; always a fault
//! ```
//!
//! and, for every command that is lent a buffer, ' buf ' and the whole buffer after the call in
//! hex, whatever the answer was. A line that is not of this protocol gets 'bad' and the reason.
//!
//! ```text
//! crc                        ok CHECKSUM
//! header                     ok REC length H
//! build                      ok REC
//! verify                     ok E
//! wheader                    ok LENGTH
//! read                       ok REC scope START END count PAIRS end E requests none
//!                            ok REC scope START END count PAIRS end E requests A B A B ..
//! write, wsized              ok REC written LENGTH
//! reserve                    ok REC written LENGTH area OFFSET LENGTH
//! finish                     ok REC written LENGTH area OFFSET LENGTH finished LENGTH
//! max                        ok PAIRS
//! compare                    ok equal, ok different
//! eof                        ok REC code CODE sum SUM size SIZE fault FAULT
//! ack                        ok REC of DIRECTIVE code CODE status STATUS
//! metadata                   ok REC closure BIT type TYPE size SIZE names HEX HEX options HEX
//!                               walked TYPE:HEX TYPE:HEX ..   (one line)
//! weof, wack, wmetadata      ok REC written LENGTH
//! receive                    ok CALL ; CALL ; .. filled N window CHECKSUM
//!                               CALL is 'TAKEN more', 'TAKEN refused NO NUMBERS', or 'TAKEN nak' and
//!                               the words of read behind 'ok'; CHECKSUM is of the window at the end
//! owed                       ok at OFFSET ranges A B A B ..   (the log's length; start and end of each)
//!                            refused NO NUMBERS at OFFSET ranges A B A B ..   (the refused entry's
//!                               offset, and the state before it)
//! differ                     ok metadata BIT BIT ranges COUNT lent N,N,..
//!                            refused NO NUMBERS lent N,N,..   (all lent numbers after the call, '-'
//!                               for none)
//! check                      ok accepted, ok not accepted
//! plan                       ok requests COUNT naks COUNT lent NUMBERS NUMBERS
//!                            refused NO NUMBERS lent NUMBERS NUMBERS   (all lent numbers after the call)
//! ```
//!
//! REC is the header as read or as handed back. 'requests none' is the missing iterator of an empty
//! area; 'requests' with nothing after it is an area that holds no whole pair. The OFFSET of a
//! reserved area counts from the buffer's first byte. HEX is hex digits, '-' for no bytes.
use std::io::Result;
use tools::rust::perform;
use tools::serve::serve;

fn main() -> Result<()> {
    // A panic of the Rust's is an answer, so its message is kept quiet; ORACLE_LOUD=1 shows it.
    if std::env::var_os("ORACLE_LOUD").is_none() {
        std::panic::set_hook(Box::new(|_| ()));
    }
    serve(perform)
}
