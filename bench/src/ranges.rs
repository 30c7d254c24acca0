//! NAKs of many pairs, and two rising lists of ranges gone through at once: what stands in the Rust's place where it has no such function.
use spacepackets::cfdp::pdu::nak::NakPduReader;

/// Start and end, rising and apart.
pub type Ranges = Vec<(u64, u64)>;

/// A NAK of that many normal pairs, of 30 bytes every 40, the first from `base` on.
pub fn nak(pairs: u32, base: u32) -> Vec<u8> {
    let data = 9 + 8 * pairs as u16;
    let mut bytes = vec![0x28, (data >> 8) as u8, data as u8, 0, 1, 2, 3, 8];
    bytes.extend([0; 8]);
    for i in 0..pairs {
        let start = base + 40 * i;
        bytes.extend(start.to_be_bytes());
        bytes.extend((start + 30).to_be_bytes());
    }
    bytes
}

/// The pairs of a NAK, by the Rust's reader.
pub fn pairs_of(bytes: &[u8]) -> Ranges {
    let nak = NakPduReader::new(bytes).expect("it is a NAK");
    nak.get_segment_requests_iterator()
        .into_iter()
        .flatten()
        .collect()
}

/// Hands over each longest piece, from its first byte up to its end, in which neither list begins or ends a range, with whether each has it.
pub fn pieces(
    one: &[(u64, u64)],
    two: &[(u64, u64)],
    mut piece: impl FnMut(u64, u64, bool, bool),
) {
    let (mut i, mut j, mut at) = (0, 0, 0);
    while at < u64::MAX {
        let edge = |list: &[(u64, u64)], k: usize| match list.get(k) {
            None => (false, u64::MAX),
            Some(&(start, end)) if start <= at => (true, end),
            Some(&(start, _)) => (false, start),
        };
        let ((first, to1), (second, to2)) = (edge(one, i), edge(two, j));
        let to = to1.min(to2);
        piece(at, to, first, second);
        i += usize::from(first && to == to1);
        j += usize::from(second && to == to2);
        at = to;
    }
}
