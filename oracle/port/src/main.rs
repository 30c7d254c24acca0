//! The port's driver: the line protocol that the top of tools/src/bin/oracle.rs sets out, answered by
//! the port's library.
use port::answer::Said;
use port::{base, differ, eof_ack, metadata, owed, plans, receive};
use std::io::Result;
use tools::serve::serve;
use tools::{Command, show};

fn main() -> Result<()> {
    serve(perform)
}

fn perform(command: Command) -> String {
    use Command::*;
    match command {
        Crc(bytes) => asked(base::crc(&bytes)),
        Header(bytes) => asked(base::header(&bytes)),
        Build(record) => asked(base::build(&record)),
        Verify(record, bytes) => asked(base::verify(&record, &bytes)),
        WriteHeader(record, buf) => lending(buf, |b| base::write_header(&record, b)),
        MostRequests(record, size) => asked(base::most_requests(&record, size)),
        Read(bytes) => asked(base::read(&bytes)),
        Write(nak, buf) => lending(buf, |b| base::write(&nak, b)),
        Reserve(record, count, buf) => lending(buf, |b| base::reserve(&record, count, b)),
        Finish(record, count, scope, buf) => {
            lending(buf, |b| base::finish(&record, count, &scope, b))
        }
        Compare(bytes, nak) => asked(base::compare(&bytes, &nak)),
        Eof(bytes) => asked(eof_ack::eof(&bytes)),
        Ack(bytes) => asked(eof_ack::ack(&bytes)),
        WriteEof(record, eof, buf) => lending(buf, |b| eof_ack::write_eof(&record, &eof, b)),
        WriteAck(record, ack, buf) => lending(buf, |b| eof_ack::write_ack(&record, &ack, b)),
        Metadata(bytes) => asked(metadata::metadata(&bytes)),
        WriteMetadata(record, said, buf) => {
            lending(buf, |b| metadata::write_metadata(&record, &said, b))
        }
        Receive(fragments) => asked(receive::receive(&fragments)),
        Differ(first, second, room) => differ::differ(&first, &second, room),
        Owed(log) => owed::owed(&log),
        CheckPlan(task, requests, naks) => asked(plans::check(&task, &requests, &naks)),
        Plan(task, requests, naks) => plans::plan(&task, requests, naks),
        WriteSized(..) => show::LACKING.to_string(),
    }
}

fn asked(said: Said) -> String {
    said.unwrap_or_else(|refused| refused)
}

fn lending(mut buf: Vec<u8>, call: impl FnOnce(&mut [u8]) -> Said) -> String {
    let text = asked(call(&mut buf));
    show::with_buffer(&text, &buf)
}
