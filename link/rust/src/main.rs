// Calls libcfdp.a from Rust with document 01's NAK N: reads it, prints it, writes it back in both ways,
// has a reading and a writing refused, compares, and cuts a stream into its PDUs.

// How many numbers an answer has.
const ANSWER_LEN: usize = 24;

type Answer = [u64; ANSWER_LEN];

// The places of an answer that are used here, by the names of `include/cfdp.h`.
const VALUE: usize = 1;
const LARGE: usize = 5;
const DATA_LENGTH: usize = 8;
const SOURCE: usize = 10;
const SEQUENCE: usize = 12;
const DESTINATION: usize = 14;
const HEADER_LENGTH: usize = 15;
const WRITTEN: usize = 15;
const NAK_START: usize = 15;
const NAK_END: usize = 16;
const NAK_AREA: usize = 17;
const NAK_STOP: usize = 18;
const NAK_PAIRS: usize = 19;
const RESERVED_AREA: usize = 16;
const RESERVED_STOP: usize = 17;

// `include/cfdp.h`: a slice is a pointer and a length, an array is a pointer.
extern "C" {
    fn cfdp_checksum(bytes: *const u8, bytes_len: usize) -> u16;
    fn cfdp_header_read(bytes: *const u8, bytes_len: usize, answer: *mut Answer);
    fn cfdp_nak_read(bytes: *const u8, bytes_len: usize, answer: *mut Answer);
    fn cfdp_nak_pairs(
        area: *const u8,
        area_len: usize,
        large: bool,
        numbers: *mut u64,
        numbers_len: usize,
    ) -> usize;
    fn cfdp_nak_write_normal(
        shape: *const [u8; 10],
        ids: *const [u64; 3],
        start: u64,
        end: u64,
        numbers: *const u32,
        count: usize,
        buf: *mut u8,
        buf_len: usize,
        answer: *mut Answer,
    );
    fn cfdp_nak_reserve(
        shape: *const [u8; 10],
        ids: *const [u64; 3],
        pairs: usize,
        buf: *const u8,
        buf_len: usize,
        answer: *mut Answer,
    );
    fn cfdp_nak_finish(
        shape: *const [u8; 10],
        ids: *const [u64; 3],
        pairs: usize,
        start: u64,
        end: u64,
        buf: *mut u8,
        buf_len: usize,
        answer: *mut Answer,
    );
    fn cfdp_nak_compare_normal(
        bytes: *const u8,
        bytes_len: usize,
        shape: *const [u8; 10],
        ids: *const [u64; 3],
        start: u64,
        end: u64,
        numbers: *const u32,
        count: usize,
        answer: *mut Answer,
    );
}

const N: [u8; 24] = [
    0x28, 0x00, 0x11, 0x00, 0x01, 0x02, 0x03, 0x08, 0x00, 0x00, 0x00, 0x00, 0x00, 0x00, 0x03, 0xE8,
    0x00, 0x00, 0x00, 0x64, 0x00, 0x00, 0x00, 0xC8,
];

fn read(bytes: &[u8]) -> Answer {
    let mut answer = [0; ANSWER_LEN];
    unsafe { cfdp_nak_read(bytes.as_ptr(), bytes.len(), &mut answer) };
    answer
}

fn pairs(area: &[u8], large: bool, count: usize) -> Vec<u64> {
    let mut numbers = vec![0; 2 * count];
    let copied = unsafe {
        cfdp_nak_pairs(
            area.as_ptr(),
            area.len(),
            large,
            numbers.as_mut_ptr(),
            numbers.len(),
        )
    };
    numbers.truncate(2 * copied);
    numbers
}

fn numbers(answer: &Answer) -> String {
    answer.iter().map(|n| format!(" {n}")).collect()
}

fn list(bytes: &[u8]) {
    let answer = read(bytes);
    println!("numbers{}", numbers(&answer));
    if answer[0] != 0 {
        println!("refused {} {} {}", answer[0], answer[1], answer[2]);
        return;
    }
    println!(
        "nak {} {} {}",
        answer[SOURCE], answer[SEQUENCE], answer[DESTINATION]
    );
    println!("scope {} {}", answer[NAK_START], answer[NAK_END]);
    let area = &bytes[answer[NAK_AREA] as usize..answer[NAK_STOP] as usize];
    for pair in pairs(area, answer[LARGE] != 0, answer[NAK_PAIRS] as usize).chunks(2) {
        println!("request {} {}", pair[0], pair[1]);
    }
    println!("end {}", answer[NAK_STOP]);
}

// N's numbers: flags clear, widths 1; the direction bit is the writer's.
const SHAPE: [u8; 10] = [0, 0, 0, 0, 0, 0, 0, 1, 1, 1];
const IDS: [u64; 3] = [1, 2, 3];
const NUMBERS: [u32; 2] = [100, 200];

fn write_n(buf: &mut [u8]) -> Answer {
    let mut answer = [0; ANSWER_LEN];
    unsafe {
        cfdp_nak_write_normal(
            &SHAPE,
            &IDS,
            0,
            1000,
            NUMBERS.as_ptr(),
            NUMBERS.len(),
            buf.as_mut_ptr(),
            buf.len(),
            &mut answer,
        )
    };
    answer
}

fn same(buf: &[u8]) -> &'static str {
    if buf == N {
        "the same bytes"
    } else {
        "other bytes"
    }
}

// The pairs' bytes go into the reserved area before the rest is written.
fn finish_n(buf: &mut [u8]) {
    let mut place = [0; ANSWER_LEN];
    unsafe { cfdp_nak_reserve(&SHAPE, &IDS, 1, buf.as_ptr(), buf.len(), &mut place) };
    let (area, stop) = (place[RESERVED_AREA] as usize, place[RESERVED_STOP] as usize);
    buf[area..stop].copy_from_slice(&N[area..stop]);
    let mut answer = [0; ANSWER_LEN];
    unsafe {
        cfdp_nak_finish(
            &SHAPE,
            &IDS,
            1,
            0,
            1000,
            buf.as_mut_ptr(),
            buf.len(),
            &mut answer,
        )
    };
    println!(
        "reserved {area} to {stop}, finished {}, {}",
        answer[WRITTEN],
        same(buf)
    );
}

// Whether N is the NAK with that end of scope: 1 or 0.
fn compare_n(end: u64) -> u64 {
    let mut answer = [0; ANSWER_LEN];
    unsafe {
        cfdp_nak_compare_normal(
            N.as_ptr(),
            N.len(),
            &SHAPE,
            &IDS,
            0,
            end,
            NUMBERS.as_ptr(),
            NUMBERS.len(),
            &mut answer,
        )
    };
    answer[VALUE]
}

// A stream is framed by its headers: what is refused is passed over like what is accepted.
fn cut(stream: &[u8]) {
    let mut at = 0;
    loop {
        let rest = &stream[at..];
        let mut answer = [0; ANSWER_LEN];
        unsafe { cfdp_header_read(rest.as_ptr(), rest.len(), &mut answer) };
        let pdu = (answer[HEADER_LENGTH] + answer[DATA_LENGTH]) as usize;
        if answer[0] != 0 || rest.len() < pdu {
            break;
        }
        println!("at {at}, {pdu} bytes: {}", read(&rest[..pdu])[0]);
        at += pdu;
    }
    println!("{} bytes wait", stream.len() - at);
}

// A header with no data, N with an unknown directive, N, and five bytes of the next.
fn cut_three() {
    let mut unknown = N;
    unknown[7] = 0x0A;
    let header = [0x20, 0x00, 0x00, 0x00, 0x01, 0x02, 0x03];
    cut(&[&header[..], &unknown, &N, &N[..5]].concat());
}

fn main() {
    let digits = b"123456789";
    println!("checksum {:x}", unsafe {
        cfdp_checksum(digits.as_ptr(), digits.len())
    });
    list(&N);

    let mut buf = [0; 24];
    let answer = write_n(&mut buf);
    println!("written {}, {}", answer[WRITTEN], same(&buf));
    finish_n(&mut [0; 24]);

    list(&N[..20]);

    let before = [0xA5; 23];
    let mut short = before;
    let answer = write_n(&mut short);
    let words = if short == before {
        "no byte changed"
    } else {
        "bytes changed"
    };
    println!("refused {} {} {}, {words}", answer[0], answer[1], answer[2]);

    println!(
        "compared {}, with another end {}",
        compare_n(1000),
        compare_n(1001)
    );
    cut_three();
}
