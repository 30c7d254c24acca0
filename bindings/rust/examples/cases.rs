//! Does with this crate what link/c/typed.c does with the typed header file for C, in the same words: link/run.sh
//! compares both with what was written by hand.
use cfdp::*;

const N: [u8; 24] = [
    0x28, 0x00, 0x11, 0x00, 0x01, 0x02, 0x03, 0x08, 0x00, 0x00, 0x00, 0x00, 0x00, 0x00, 0x03, 0xE8,
    0x00, 0x00, 0x00, 0x64, 0x00, 0x00, 0x00, 0xC8,
];
// Condition 4, file checksum 7, file size 9, fault location 5; then the ACK of an EOF, of an active transaction.
const EOF: [u8; 20] = [
    0x20, 0x00, 0x0D, 0x00, 0x01, 0x02, 0x03, 0x04, 0x40, 0x00, 0x00, 0x00, 0x07, 0x00, 0x00, 0x00,
    0x09, 0x06, 0x01, 0x05,
];
// Closure requested, checksum type 3, file size 9, from a.bin to b.bin, options of type 2 and 5.
const METADATA: &[u8; 31] =
    b"\x20\x00\x18\x00\x01\x02\x03\x07\x43\x00\x00\x00\x09\x05a.bin\x05b.bin\x02\x02ab\x05\x00";
const ACK: [u8; 10] = [0x28, 0x00, 0x03, 0x00, 0x01, 0x02, 0x03, 0x06, 0x40, 0x01];

const SCOPE: Pair = Pair {
    start: 0,
    end: 1000,
};
const PAIRS: [Pair<u32>; 1] = [Pair {
    start: 100,
    end: 200,
}];

/// The refusal as its number and two values.
fn refused<T>(answer: Result<T, Refusal>) -> String {
    let (number, first, second) = answer.err().expect("it is refused").numbers();
    format!("refused {number} {first} {second}")
}

fn list(bytes: &[u8]) {
    let nak = match Nak::read(bytes) {
        Ok(nak) => nak,
        refusal => return println!("{}", refused(refusal)),
    };
    let Header {
        source,
        sequence,
        destination,
        ..
    } = nak.header;
    println!("nak {} {} {}", source.0, sequence.0, destination.0);
    println!("scope {} {}", nak.scope.start, nak.scope.end);
    for pair in nak.pairs() {
        println!("request {} {}", pair.start, pair.end);
    }
    println!("end {}", nak.data_end);
}

fn same(one: &[u8], other: &[u8]) -> &'static str {
    if one == other {
        "the same bytes"
    } else {
        "other bytes"
    }
}

fn write_n(header: &Header) -> Result<(), Refusal> {
    let mut buf = [0; 24];
    let written = Nak::write(header, SCOPE, Pairs::Normal(&PAIRS), &mut buf)?;
    println!("written {}, {}", written.length, same(&buf, &N));

    // The pairs' bytes go into the reserved area before the rest is written.
    let mut buf = [0; 24];
    let reserved = Reserved::new(header, 1, &buf)?;
    let area = reserved.area..reserved.stop;
    buf[area.clone()].copy_from_slice(&N[area.clone()]);
    let length = reserved.finish(SCOPE, &mut buf)?.length;
    println!(
        "reserved {} to {}, finished {length}, {}",
        area.start,
        area.end,
        same(&buf, &N)
    );

    list(&N[..20]);

    let mut short = [0xA5; 23];
    let refusal = refused(Nak::write(header, SCOPE, Pairs::Normal(&PAIRS), &mut short));
    let words = if short == [0xA5; 23] {
        "no byte changed"
    } else {
        "bytes changed"
    };
    println!("{refusal}, {words}");
    Ok(())
}

/// A header with no data, N with an unknown directive, N, and five bytes of the next.
fn cut_three() {
    let mut unknown = N;
    unknown[7] = 0x0A;
    let header = [0x20, 0x00, 0x00, 0x00, 0x01, 0x02, 0x03];
    let stream = [&header[..], &unknown, &N, &N[..5]].concat();

    let mut pdus = Pdus { rest: &stream };
    let mut at = 0;
    for pdu in pdus.by_ref() {
        let number = Nak::read(pdu).map_or_else(|refusal| refusal.numbers().0, |_| 0);
        println!("at {at}, {} bytes: {number}", pdu.len());
        at += pdu.len();
    }
    println!("{} bytes wait", pdus.rest.len());
}

// ---- from here on: typed.txt

fn header_there_and_back(header: Header) -> Result<(), Refusal> {
    let mut buf = [0; 28];
    let length = header.write(&mut buf)?;
    let bytes: String = buf[..length].iter().map(|b| format!(" {b:02x}")).collect();
    let (h, pdu_length) = Header::read(&buf[..length])?;
    let flags = [
        h.file_data,
        h.towards_sender,
        h.unacknowledged,
        h.crc,
        h.large,
        h.segmentation_control,
        h.segment_metadata,
    ];
    let flags: String = flags
        .iter()
        .map(|flag| format!(" {}", *flag as u8))
        .collect();
    println!(
        "header{bytes}:{flags} {} {} {} {} {} {}, P {pdu_length}",
        h.data_length, h.entity_width, h.source.0, h.sequence_width, h.sequence.0, h.destination.0
    );
    Ok(())
}

/// Two headers with no flag alike.
fn headers(header: Header) -> Result<(), Refusal> {
    let one = Header {
        file_data: true,
        unacknowledged: true,
        large: true,
        segment_metadata: true,
        entity_width: 2,
        sequence_width: 4,
        data_length: 258,
        source: EntityId(513),
        sequence: TransactionSeqNum(70000),
        destination: EntityId(514),
        ..Header::default()
    };
    let other = Header {
        towards_sender: true,
        crc: true,
        segmentation_control: true,
        data_length: 258,
        ..header
    };
    header_there_and_back(one)?;
    header_there_and_back(other)?;
    println!("a packet of 60 bytes holds {}", Nak::most(&other, 60)?);
    let source = EntityId(256);
    let refusal = refused(Header { source, ..other }.judge());
    let (header, _) = Header::read(&N)?;
    println!(
        "{refusal}; N is verified, and ends at {}",
        header.verify(&N)?
    );
    Ok(())
}

/// Pairs of eight bytes a number, and no list of pairs.
fn large_and_none(header: &Header) -> Result<(), Refusal> {
    let whole = Pair {
        start: 0,
        end: 1099511627776,
    };
    let asked = [
        Pair { start: 1, end: 2 },
        Pair {
            start: 3,
            end: 1099511627776,
        },
    ];
    let mut buf = [0; 56];
    let written = Nak::write(header, whole, Pairs::Large(&asked), &mut buf)?;
    let nak = Nak::read(&buf[..written.length])?;
    let mut copy = [Pair { start: 7, end: 7 }; 3];
    let copied = nak.copy(&mut copy);
    let verdict = Nak::same(&buf, header, whole, Pairs::Large(&asked))?;
    println!(
        "large {} bytes, flag {}, {} pairs, {copied} copied, the last to {}, then {}; compared {}",
        written.length,
        written.header.large as u8,
        nak.pairs().len(),
        copy[1].end,
        copy[2].end,
        verdict as u8
    );
    assert!(nak.pairs().eq(asked));
    assert_eq!(
        (nak.pairs().nth(1), nak.pairs().nth(2)),
        (Some(asked[1]), None)
    );

    let written = Nak::write(header, SCOPE, Pairs::None, &mut buf)?;
    let verdict = Nak::same(&buf, header, SCOPE, Pairs::None)?;
    println!("none {} bytes, compared {}", written.length, verdict as u8);
    Ok(())
}

fn eof_and_ack(header: Header) -> Result<(), Refusal> {
    let mut buf = [0; 20];
    println!("{} with 0 pairs", refused(Nak::read(&EOF)));
    let eof = Eof::read(&EOF)?;
    let fault = eof.fault.expect("there is one");
    println!(
        "eof {} {} {} fault 1 {} {} end {} next {}",
        eof.condition,
        eof.file_checksum,
        eof.file_size,
        fault.width,
        fault.entity.0,
        eof.data_end,
        eof.pdu_length
    );
    let eof = Eof { header, ..eof };
    let written = eof.write(&mut buf)?;
    println!(
        "written {}, {}, towards the sender {}",
        written.length,
        same(&buf, &EOF),
        written.header.towards_sender as u8
    );
    let condition = 12;
    let reserved = Eof { condition, ..eof };
    println!("{} written 0", refused(reserved.write(&mut buf)));

    let ack = Ack::read(&ACK)?;
    println!(
        "ack {} {} {} end {} next {}",
        ack.directive, ack.condition, ack.transaction_status, ack.data_end, ack.pdu_length
    );
    let header = Header {
        crc: true,
        ..header
    };
    let written = Ack { header, ..ack }.write(&mut buf)?;
    let ack = Ack::read(&buf[..written.length])?;
    println!(
        "written {}, checksum {:02x}{:02x}, towards the sender {}, end {} next {}",
        written.length,
        buf[10],
        buf[11],
        written.header.towards_sender as u8,
        ack.data_end,
        ack.pdu_length
    );
    Ok(())
}

fn print_options(metadata: &Metadata) {
    let (mut walked, area) = (0, metadata.option_area);
    for option in metadata.options().map_while(Result::ok) {
        print!("option {} of {} bytes, ", option.kind, option.value.len());
        walked += 2 + option.value.len();
    }
    println!("walked {walked} of {}", area.len());
    if walked < area.len() {
        assert_eq!(
            metadata.options().last(),
            Some(Err(Refusal::FieldCut(walked)))
        );
    }
}

fn metadata(header: Header) -> Result<(), Refusal> {
    let mut buf = [0; 31];
    let read = Metadata::read(METADATA)?;
    let name = |bytes| String::from_utf8_lossy(bytes).into_owned();
    println!(
        "metadata {} {} {} {} {} end {} next {}",
        read.closure as u8,
        read.checksum_type,
        read.file_size,
        name(read.source_name),
        name(read.destination_name),
        read.data_end,
        read.pdu_length
    );
    print_options(&read);
    let written = Metadata { header, ..read }.write(&mut buf)?;
    println!(
        "written {}, {}, towards the sender {}",
        written.length,
        same(&buf, METADATA),
        written.header.towards_sender as u8
    );
    let cut = Metadata {
        header,
        option_area: &read.option_area[..5],
        ..read
    };
    print_options(&cut);
    println!("{}", refused(cut.write(&mut buf)));
    Ok(())
}

/// One call, and what it gave.
fn take(receiver: &mut Receiver, fragment: &mut &[u8]) {
    let before = fragment.len();
    let said = match receiver.take(fragment) {
        Ok(Some(nak)) => nak
            .pairs()
            .map(|p| format!("nak {} {}", p.start, p.end))
            .collect(),
        Ok(None) => String::from("more"),
        refusal => refused(refusal),
    };
    println!("took {}: {said}", before - fragment.len());
}

/// N in two pieces, N behind it, and five bytes of the next; then a version of 2, twice, and N after a reset.
fn receive() {
    let bytes = [&N[..], &N, &N[..5]].concat();
    let (mut one, mut other) = bytes.split_at(20);
    let mut receiver = Receiver::new();
    take(&mut receiver, &mut one);
    while !other.is_empty() {
        take(&mut receiver, &mut other);
    }
    println!("{} bytes in the window", receiver.filled());

    let mut two = N;
    two[0] = 0x48;
    let (mut again, mut n) = (&two[..], &N[..]);
    receiver.reset();
    take(&mut receiver, &mut again);
    take(&mut receiver, &mut again);
    receiver.reset();
    take(&mut receiver, &mut n);
}

/// N beside a NAK that asks for metadata and for 150 to 300.
fn differ_n(header: &Header) -> Result<(), Refusal> {
    let asked = [
        Pair { start: 0, end: 0 },
        Pair {
            start: 150,
            end: 300,
        },
    ];
    let mut buf = [0; 32];
    Nak::write(header, SCOPE, Pairs::Normal(&asked), &mut buf)?;
    let mut only = [Only::default(); 3];
    let difference = differ(&N, &buf, &mut only)?;
    for range in &only[..difference.ranges] {
        print!("only {} {} {}, ", range.side, range.start, range.end);
    }
    let [first, second] = difference.metadata.map(u8::from);
    println!("metadata {first} {second}");
    Ok(())
}

/// N was heard, 120 to 150 was resent, and then an entry of no known tag.
fn owe() {
    let resent = b"\x02\x00\x10\x00\x00\x00\x00\x00\x00\x00\x78\x00\x00\x00\x00\x00\x00\x00\x96";
    let log = [b"\x01\x00\x18", &N[..], resent, b"\x03\x00\x00"].concat();
    let (mut owed, mut at) = (Owed::new(), 0);
    let refusal = loop {
        match owed.take(&log, at) {
            Ok(next) => at = next,
            refusal => break refused(refusal),
        }
        owed.ranges()
            .for_each(|range| print!("owed {} {}, ", range.start, range.end));
        println!("at {at}");
    };
    let mut again = Owed::new();
    let (at, all) = again.run(&log, 0);
    assert!(again == owed && refused(all) == refusal);
    println!(
        "{refusal}; all at once {} at {at}",
        all.map_or_else(|refusal| refusal.numbers().0, |()| 0)
    );
}

/// Of 0 to 1000 there is 0 to 100 and 200 to 500, and a packet holds one request.
fn plan(header: &Header) -> Result<(), Refusal> {
    let received = [
        Pair { start: 0, end: 100 },
        Pair {
            start: 200,
            end: 500,
        },
    ];
    let missing = Missing {
        header,
        packet: 24,
        scope: SCOPE,
        received: &received,
    };
    let (mut requests, mut naks) = ([Pair::default(); 4], [PlannedNak::default(); 4]);
    let planned = missing.plan(&mut requests, &mut naks)?;
    let (requests, naks) = (&requests[..planned.requests], &naks[..planned.naks]);
    for nak in naks {
        print!(
            "nak {} {} with {}, ",
            nak.scope.start, nak.scope.end, nak.requests
        );
    }
    let accepted = missing.accepts(requests, naks)?;
    let shorter = missing.accepts(&requests[..requests.len() - 1], &naks[..naks.len() - 1])?;
    println!(
        "of {} requests: accepted {}, without the last {}",
        requests.len(),
        accepted as u8,
        shorter as u8
    );
    Ok(())
}

fn main() -> Result<(), Refusal> {
    let header = Header {
        entity_width: 1,
        sequence_width: 1,
        source: EntityId(1),
        sequence: TransactionSeqNum(2),
        destination: EntityId(3),
        ..Header::default()
    };
    println!("checksum {:x}", checksum(b"123456789"));
    list(&N);
    write_n(&header)?;
    let compared = |end| {
        let until = Pair { start: 0, end };
        Nak::same(&N, &header, until, Pairs::Normal(&PAIRS)).map(u8::from)
    };
    println!(
        "compared {}, with another end {}",
        compared(1000)?,
        compared(1001)?
    );
    cut_three();

    headers(header)?;
    large_and_none(&header)?;
    receive();
    eof_and_ack(header)?;
    metadata(header)?;
    differ_n(&header)?;
    owe();
    plan(&header)?;
    println!("0 accepted");
    for number in 1..=33 {
        let refusal = Refusal::from_numbers(number, 0, 0);
        assert_eq!(refusal.numbers(), (number, 0, 0));
        println!("{number} {}", refusal.text());
    }
    Ok(())
}
