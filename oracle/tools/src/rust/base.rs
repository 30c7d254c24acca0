//! The commands of the base, each one call of the Rust.
use super::{Answer, Refused, header_of, not_made, record_of};
use crate::command::Nak;
use crate::show::{self, Reading, Reserved};
use crate::{List, Record, Scope};
use spacepackets::cfdp::pdu::nak::{
    NakPduCreator, NakPduCreatorWithReservedSeqReqsBuf, NakPduReader, SegmentRequests,
    calculate_max_segment_requests,
};
use spacepackets::cfdp::pdu::{CfdpPdu, PduHeader};
use spacepackets::crc::{CRC_CCITT_FALSE, CRC_CCITT_FALSE_BIG_TABLE, CRC_CCITT_FALSE_NO_TABLE};

/// The Rust's three forms of the checksum, which must agree.
pub fn crc(bytes: &[u8]) -> Answer {
    let one = CRC_CCITT_FALSE.checksum(bytes);
    let none = CRC_CCITT_FALSE_NO_TABLE.checksum(bytes);
    let big = CRC_CCITT_FALSE_BIG_TABLE.checksum(bytes);
    if one == none && one == big {
        Ok(show::number(one))
    } else {
        Err(Refused(format!("err forms differ {none} {one} {big}")))
    }
}

pub fn header(bytes: &[u8]) -> Answer {
    let (header, header_length) = PduHeader::from_bytes(bytes)?;
    Ok(show::header(&record_of(&header), header_length))
}

pub fn build(record: &Record) -> Answer {
    Ok(show::record(&record_of(&header_of(record)?)))
}

pub fn verify(record: &Record, bytes: &[u8]) -> Answer {
    let data_end = header_of(record)?.verify_length_and_checksum(bytes)?;
    Ok(show::number(data_end))
}

pub fn write_header(record: &Record, buf: &mut [u8]) -> Answer {
    Ok(show::number(header_of(record)?.write_to_slice(buf)?))
}

pub fn most_requests(record: &Record, size: usize) -> Answer {
    let header = header_of(record)?;
    Ok(show::number(calculate_max_segment_requests(size, &header)?))
}

pub fn read(bytes: &[u8]) -> Answer {
    let reader = NakPduReader::new(bytes)?;
    let requests = reader.get_segment_requests_iterator();
    Ok(show::reading(&Reading {
        record: record_of(reader.pdu_header()),
        scope: Scope {
            start: reader.start_of_scope(),
            end: reader.end_of_scope(),
        },
        count: reader.num_segment_reqs(),
        data_end: reader.pdu_header().verify_length_and_checksum(bytes)?,
        requests: requests.map(|pairs| pairs.collect()),
    }))
}

pub fn write(nak: &Nak, buf: &mut [u8]) -> Answer {
    let header = header_of(&nak.record)?;
    let pairs = Pairs::of(&nak.list)?;
    let creator = NakPduCreator::new(header, nak.scope.start, nak.scope.end, pairs.requests())?;
    written(&creator, buf)
}

/// Through the constructor that is named after the list's kind.
pub fn write_sized(nak: &Nak, buf: &mut [u8]) -> Answer {
    let header = header_of(&nak.record)?;
    let Scope { start, end } = nak.scope;
    let narrow = |n: u64| u32::try_from(n).map_err(|_| not_made());
    let pairs = Pairs::of(&nak.list)?;
    let creator = match &pairs {
        Pairs::None => NakPduCreator::new_no_segment_requests(header, start, end)?,
        Pairs::Normal(p) => {
            NakPduCreator::new_normal_file_size(header, narrow(start)?, narrow(end)?, p)?
        }
        Pairs::Large(p) => NakPduCreator::new_large_file_size(header, start, end, p)?,
    };
    written(&creator, buf)
}

fn written(creator: &NakPduCreator, buf: &mut [u8]) -> Answer {
    let pdu_length = creator.write_to_slice(buf)?;
    Ok(show::written(&record_of(creator.pdu_header()), pdu_length))
}

pub fn reserve(record: &Record, count: usize, buf: &mut [u8]) -> Answer {
    let start = buf.as_ptr() as usize;
    let reserving = NakPduCreatorWithReservedSeqReqsBuf::new(buf, header_of(record)?, count)?;
    Ok(show::reserved(&reserved(&reserving, start)))
}

pub fn finish(record: &Record, count: usize, scope: &Scope, buf: &mut [u8]) -> Answer {
    let start = buf.as_ptr() as usize;
    let reserving = NakPduCreatorWithReservedSeqReqsBuf::new(buf, header_of(record)?, count)?;
    let before = reserved(&reserving, start);
    let pdu_length = reserving.finish(scope.start, scope.end)?;
    Ok(show::finished(&before, pdu_length))
}

/// `start` is the address of the buffer's first byte.
fn reserved(reserving: &NakPduCreatorWithReservedSeqReqsBuf, start: usize) -> Reserved {
    let area = reserving.segment_request_buffer();
    Reserved {
        record: record_of(reserving.pdu_header()),
        pdu_length: reserving.len_written(),
        area_start: area.as_ptr() as usize - start,
        area_length: area.len(),
    }
}

pub fn compare(bytes: &[u8], nak: &Nak) -> Answer {
    let reader = NakPduReader::new(bytes)?;
    let header = header_of(&nak.record)?;
    let pairs = Pairs::of(&nak.list)?;
    let creator = NakPduCreator::new(header, nak.scope.start, nak.scope.end, pairs.requests())?;
    Ok(show::comparison(reader == creator))
}

/// The list as the Rust wants it.
enum Pairs {
    None,
    Normal(Vec<(u32, u32)>),
    Large(Vec<(u64, u64)>),
}

impl Pairs {
    fn of(list: &List) -> Result<Pairs, Refused> {
        Ok(match list {
            List::None => Pairs::None,
            List::Normal(numbers) => Pairs::Normal(by_two(numbers)?),
            List::Large(numbers) => Pairs::Large(by_two(numbers)?),
        })
    }

    fn requests(&self) -> Option<SegmentRequests<'_>> {
        match self {
            Pairs::None => None,
            Pairs::Normal(pairs) => Some(SegmentRequests::U32Pairs(pairs)),
            Pairs::Large(pairs) => Some(SegmentRequests::U64Pairs(pairs)),
        }
    }
}

fn by_two<T: Copy>(numbers: &[T]) -> Result<Vec<(T, T)>, Refused> {
    let (pairs, rest) = numbers.as_chunks::<2>();
    if rest.is_empty() {
        Ok(pairs.iter().map(|[start, end]| (*start, *end)).collect())
    } else {
        Err(not_made())
    }
}
