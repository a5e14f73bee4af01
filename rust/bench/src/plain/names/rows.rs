//! Entry rows, child rows and the records of a linkEA.

use numbers::entry::{FID_AT, NAME_AT, PARENT_AT, ROOM};
use numbers::fid::{ID_AT, VERSION_AT};
use numbers::names::{ROOT_ID, ROOT_SEQUENCE};
use numbers::{child, entry, link};

use crate::plain::bytes::{Fid, number16, number32, row};
use crate::plain::link::{big32, big64, is_good, is_good_name, length_at};

pub const ROOT: Fid = Fid {
    sequence: ROOT_SEQUENCE,
    id: ROOT_ID,
    version: 0,
};

pub fn parent_of(entry: &[u8]) -> Fid {
    Fid::read(entry, PARENT_AT)
}

pub fn child_of(row: &[u8]) -> usize {
    number32(row, entry::CHILD_AT) as usize
}

/// The child row of an entry.
pub fn child_row<'table>(children: &'table [u8], entry: &[u8]) -> &'table [u8] {
    row(children, child::BYTES, child_of(entry))
}

pub fn name_of(row: &[u8]) -> &[u8] {
    let length = number16(row, entry::LENGTH_AT).into();
    &row[NAME_AT..][..length]
}

pub fn put_fid(row: &mut [u8], fid: Fid) {
    fid.write(row, FID_AT);
}

pub fn own_of(row: &[u8]) -> Fid {
    Fid::read(row, child::SELF_AT)
}

pub fn up_of(row: &[u8]) -> Fid {
    Fid::read(row, child::UP_AT)
}

/// The linkEA of a child, empty where there is none.
pub fn link_of(row: &[u8]) -> &[u8] {
    let length = number16(row, child::LENGTH_AT).into();
    &row[child::LINK_AT..][..length]
}

pub fn is_good_entry(row: &[u8]) -> bool {
    let length: usize = number16(row, entry::LENGTH_AT).into();
    (1..=ROOM).contains(&length) && is_good_name(name_of(row))
}

pub fn is_good_child(row: &[u8]) -> bool {
    let length: usize = number16(row, child::LENGTH_AT).into();
    length == 0 || (length <= child::ROOM && is_good(link_of(row)))
}

/// The records of a good linkEA.
pub fn records(link: &[u8]) -> impl Iterator<Item = &[u8]> {
    let mut rest = link.get(link::HEADER..).unwrap_or_default();
    std::iter::from_fn(move || {
        let length = (!rest.is_empty()).then(|| length_at(rest, 0))?;
        let (record, after) = rest.split_at(length);
        rest = after;
        Some(record)
    })
}

/// The directory of a record.
pub fn directory_of(record: &[u8]) -> Fid {
    Fid {
        sequence: big64(record, link::PARENT_AT),
        id: big32(record, link::PARENT_AT + ID_AT),
        version: big32(record, link::PARENT_AT + VERSION_AT),
    }
}

/// Whether a record is that of an entry.
pub fn is_of(record: &[u8], entry: &[u8]) -> bool {
    record[link::NAME_AT..] == *name_of(entry) && directory_of(record) == parent_of(entry)
}

/// Whether a linkEA has the record of an entry.
pub fn has_record(link: &[u8], entry: &[u8]) -> bool {
    records(link).any(|record| is_of(record, entry))
}
