//! LinkEAs on numbers and bytes.

use std::collections::BTreeSet;

use super::hand_out;
use crate::answer::{BAD_LINK, DONE, NO_POSITION, NO_ROOM};
use crate::fid::Fid;
use crate::link::{BEFORE_NAME, Fault, HEADER_BYTES, Link, MOST_RECORD, Record, name_faults};

/// The numbers of a record that is written.
const RECORD_NUMBERS: usize = 5;

/// A condition under which numbers describe no linkEA.
#[derive(Clone, Copy, Debug, PartialEq, Eq, PartialOrd, Ord)]
pub enum LinkFault {
    /// The fields are not four.
    Fields,
    /// The numbers of the records are not five for each.
    Records,
    /// There are fewer records than counted.
    CountTooLarge,
    /// There are more records than counted.
    CountTooSmall,
    /// The count is above 32 bits.
    CountWide,
    /// The total is not that of header and records.
    Total,
    /// The overflow time is above 32 bits.
    TimeWide,
    /// The padding is above 32 bits.
    PaddingWide,
    /// A parent's id is above 32 bits.
    IdWide,
    /// A parent's version is above 32 bits.
    VersionWide,
    /// A name goes past the end of the bytes in which it is to lie.
    NameOutside,
    /// A name is empty.
    NameEmpty,
    /// A record would be longer than its length can say.
    NameLong,
    /// A name has a slash.
    Slash,
    /// A name has a zero byte.
    Zero,
}

/// Every condition that holds.
pub type LinkFaults = BTreeSet<LinkFault>;

/// Reads the header of a linkEA into 4 numbers.
pub fn link_read(link: &[u8], fields: &mut [u64]) -> u32 {
    let Ok(link) = Link::parse(link) else {
        return BAD_LINK;
    };
    let numbers = [
        link.records.len() as u64,
        link.total() as u64,
        link.time.into(),
        link.padding.into(),
    ];
    hand_out(&numbers, fields)
}

/// Reads the record at a place of a linkEA into 6 numbers.
pub fn link_record(link: &[u8], place: u64, out: &mut [u64]) -> u32 {
    let Ok(link) = Link::parse(link) else {
        return BAD_LINK;
    };
    match link.placed().find(|&(at, _)| at as u64 == place) {
        Some((at, record)) => hand_out(&numbers_of_record(at, record), out),
        None => NO_POSITION,
    }
}

/// Writes the linkEA that numbers and names describe into `destination`, and its length to `out`.
pub fn link_write(
    fields: &[u64],
    records: &[u64],
    names: &[u8],
    destination: &mut [u8],
    out: &mut [u64],
) -> u32 {
    let Ok(link) = link_of_numbers(fields, records, names) else {
        return BAD_LINK;
    };
    let bytes = link.encode();
    let (Some(room), Some(written)) = (destination.get_mut(..bytes.len()), out.first_mut()) else {
        return NO_ROOM;
    };
    room.copy_from_slice(&bytes);
    *written = bytes.len() as u64;
    DONE
}

fn numbers_of_record(at: usize, record: &Record) -> [u64; RECORD_NUMBERS + 1] {
    [
        record.parent.sequence,
        record.parent.id.into(),
        record.parent.version.into(),
        (at + BEFORE_NAME) as u64,
        record.name.len() as u64,
        (at + record.length()) as u64,
    ]
}

/// The linkEA that four numbers, five numbers a record and the bytes of the names describe, or
/// every condition that keeps them from it.
pub fn link_of_numbers(fields: &[u64], records: &[u64], names: &[u8]) -> Result<Link, LinkFaults> {
    let mut faults = LinkFaults::new();
    let (whole, rest) = records.as_chunks::<RECORD_NUMBERS>();
    if !rest.is_empty() {
        faults.insert(LinkFault::Records);
    }
    let taken: Vec<Option<Record>> = whole
        .iter()
        .map(|numbers| record_of_numbers(*numbers, names, &mut faults))
        .collect();
    let header = header_of_numbers(fields, whole, &mut faults);
    let records: Option<Vec<Record>> = taken.into_iter().collect();
    match (header, records) {
        (Some((time, padding)), Some(records)) if faults.is_empty() => Ok(Link {
            time,
            padding,
            records,
        }),
        _ => Err(faults),
    }
}

/// Time and padding.
fn header_of_numbers(
    fields: &[u64],
    records: &[[u64; RECORD_NUMBERS]],
    faults: &mut LinkFaults,
) -> Option<(u32, u32)> {
    let &[count, total, time, padding] = fields else {
        faults.insert(LinkFault::Fields);
        return None;
    };
    if count > records.len() as u64 {
        faults.insert(LinkFault::CountTooLarge);
    }
    if count < records.len() as u64 {
        faults.insert(LinkFault::CountTooSmall);
    }
    fit::<u32>(count, LinkFault::CountWide, faults);
    let lengths = records.iter().map(|numbers| u128::from(numbers[4]));
    let bytes = lengths.fold(HEADER_BYTES as u128, |bytes, name| {
        bytes + BEFORE_NAME as u128 + name
    });
    if u128::from(total) != bytes {
        faults.insert(LinkFault::Total);
    }
    let time = fit(time, LinkFault::TimeWide, faults);
    let padding = fit(padding, LinkFault::PaddingWide, faults);
    Some((time?, padding?))
}

fn record_of_numbers(
    [sequence, id, version, start, length]: [u64; RECORD_NUMBERS],
    names: &[u8],
    faults: &mut LinkFaults,
) -> Option<Record> {
    let id = fit(id, LinkFault::IdWide, faults);
    let version = fit(version, LinkFault::VersionWide, faults);
    if length == 0 {
        faults.insert(LinkFault::NameEmpty);
    }
    if length > (MOST_RECORD - BEFORE_NAME) as u64 {
        faults.insert(LinkFault::NameLong);
    }
    let name = part(names, start, length);
    if name.is_none() {
        faults.insert(LinkFault::NameOutside);
    }
    faults.extend(name_faults(name.unwrap_or_default()).map(of_name));
    Some(Record {
        parent: Fid {
            sequence,
            id: id?,
            version: version?,
        },
        name: name?.to_vec(),
    })
}

/// A part of some bytes, if it is one.
fn part(bytes: &[u8], start: u64, length: u64) -> Option<&[u8]> {
    let end = start.checked_add(length)?;
    bytes.get(usize::try_from(start).ok()?..usize::try_from(end).ok()?)
}

fn of_name(fault: Fault) -> LinkFault {
    if fault == Fault::Slash {
        LinkFault::Slash
    } else {
        LinkFault::Zero
    }
}

/// The number in a narrower field.
fn fit<Field: TryFrom<u64>>(
    number: u64,
    fault: LinkFault,
    faults: &mut LinkFaults,
) -> Option<Field> {
    let field = number.try_into().ok();
    if field.is_none() {
        faults.insert(fault);
    }
    field
}

#[cfg(test)]
mod tests {
    use super::*;

    const NAMES: &[u8] = b"..abc/\0";
    /// One record, whose name is `bc`.
    const FIELDS: [u64; 4] = [1, 44, 7, 8];
    const RECORD: [u64; 5] = [u64::MAX, 0xffff_ffff, 9, 3, 2];

    fn faults(fields: &[u64], records: &[u64]) -> Vec<LinkFault> {
        match link_of_numbers(fields, records, NAMES) {
            Ok(_) => Vec::new(),
            Err(faults) => faults.into_iter().collect(),
        }
    }

    fn with_field(at: usize, number: u64) -> Vec<LinkFault> {
        let mut fields = FIELDS;
        fields[at] = number;
        faults(&fields, &RECORD)
    }

    fn with_number(at: usize, number: u64) -> Vec<LinkFault> {
        let mut record = RECORD;
        record[at] = number;
        // The total that the record would have.
        let fields = [1, 42_u64.wrapping_add(record[4]), 7, 8];
        faults(&fields, &record)
    }

    #[test]
    fn what_is_read_is_written_back() {
        let (mut bytes, mut out) = (vec![0xab; 50], [0; 2]);
        assert_eq!(link_write(&FIELDS, &RECORD, NAMES, &mut bytes, &mut out), 0);
        assert_eq!(out, [44, 0]);
        assert_eq!(bytes[44..], [0xab; 6]);
        let (mut fields, mut record) = ([0; 4], [0; 6]);
        assert_eq!(link_read(&bytes[..44], &mut fields), 0);
        assert_eq!(fields, FIELDS);
        assert_eq!(link_record(&bytes[..44], 24, &mut record), 0);
        assert_eq!(record, [u64::MAX, 0xffff_ffff, 9, 42, 2, 44]);
        assert_eq!(&bytes[42..44], b"bc");
        let mut again = vec![0; 44];
        let answer = link_write(&fields, &record[..5], &bytes, &mut again, &mut out);
        assert_eq!((answer, &again[..]), (0, &bytes[..44]));
    }

    #[test]
    fn refusals_come_in_their_order() {
        let (mut bytes, mut out) = (vec![0; 44], [7; 6]);
        assert_eq!(link_write(&FIELDS, &RECORD, NAMES, &mut bytes, &mut out), 0);
        assert_eq!(link_record(&bytes, 44, &mut out[..5]), NO_POSITION);
        assert_eq!(link_record(&bytes, 25, &mut out), NO_POSITION);
        assert_eq!(link_record(&bytes, 24, &mut out[..5]), NO_ROOM);
        assert_eq!(link_record(&bytes[..43], 25, &mut out[..5]), BAD_LINK);
        assert_eq!(link_read(&bytes, &mut out[..3]), NO_ROOM);
        assert_eq!(link_read(&bytes[..43], &mut out[..3]), BAD_LINK);
        let short = &mut [1; 43][..];
        assert_eq!(
            link_write(&FIELDS, &RECORD, NAMES, short, &mut out),
            NO_ROOM
        );
        assert_eq!(link_write(&FIELDS, &RECORD, b"", short, &mut out), BAD_LINK);
        assert_eq!(
            link_write(&FIELDS, &RECORD, NAMES, &mut bytes, &mut []),
            NO_ROOM
        );
        assert_eq!((short, out), (&mut [1; 43][..], [44, 7, 7, 7, 7, 7]));
    }

    #[test]
    fn each_condition_of_the_writer_is_found_alone() {
        use LinkFault::*;
        assert_eq!(faults(&FIELDS, &RECORD), []);
        assert_eq!(faults(&FIELDS[..3], &RECORD), [Fields]);
        assert_eq!(faults(&[1, 44, 7, 8, 0], &RECORD), [Fields]);
        let six = [&RECORD[..], &[0]].concat();
        assert_eq!(faults(&FIELDS, &six), [Records]);
        assert_eq!(with_field(0, 2), [CountTooLarge]);
        assert_eq!(with_field(0, 0), [CountTooSmall]);
        assert_eq!(with_field(0, 1 << 32 | 1), [CountTooLarge, CountWide]);
        assert_eq!(with_field(1, 43), [Total]);
        assert_eq!(with_field(2, 1 << 32), [TimeWide]);
        assert_eq!(with_field(3, 1 << 32), [PaddingWide]);
        assert_eq!(with_number(1, 1 << 32), [IdWide]);
        assert_eq!(with_number(2, 1 << 32), [VersionWide]);
        assert_eq!(with_number(3, 6), [NameOutside]);
        assert_eq!(with_number(3, u64::MAX), [NameOutside]);
        assert_eq!(with_number(4, 0), [NameEmpty]);
        assert_eq!(with_number(4, 3), [Slash]);
        assert_eq!(with_number(3, 5), [Slash, Zero]);
        let long = vec![b'n'; 65_518];
        let (fields, record) = ([1, 42 + 65_518, 0, 0], [0, 0, 0, 0, 65_518]);
        let refused = link_of_numbers(&fields, &record, &long).unwrap_err();
        assert_eq!(refused, LinkFaults::from([NameLong]));
        let (fields, record) = ([1, 42 + 65_517, 0, 0], [0, 0, 0, 1, 65_517]);
        assert!(link_of_numbers(&fields, &record, &long).is_ok());
    }
}
