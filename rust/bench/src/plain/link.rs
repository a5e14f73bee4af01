//! LinkEAs in the lent bytes.

use numbers::answer::{BAD_LINK, NO_POSITION, NO_ROOM, OK};
use numbers::call::{LINK_HEADER, LINK_READ, LINK_WRITTEN};
use numbers::fid::{ID_AT, VERSION_AT};
use numbers::link::{
    COUNT_AT, HEADER, LEAST_RECORD, MAGIC, MAGIC_AT, MOST_NAME, NAME_AT, PADDING_AT, PARENT_AT,
    TIME_AT, TOTAL_AT,
};

use super::bytes::{number32, number64};

/// Reads the header of a linkEA.
pub fn link_read(link: &[u8], fields: &mut [u64; LINK_HEADER]) -> u32 {
    if !is_good(link) {
        return BAD_LINK;
    }
    *fields = [
        number32(link, COUNT_AT).into(),
        number64(link, TOTAL_AT),
        number32(link, TIME_AT).into(),
        number32(link, PADDING_AT).into(),
    ];
    OK
}

/// Reads the record at a place of a linkEA.
pub fn link_record(link: &[u8], place: u64, out: &mut [u64; LINK_READ]) -> u32 {
    if !is_good(link) {
        return BAD_LINK;
    }
    let mut at = HEADER;
    while at < link.len() && (at as u64) < place {
        at += length_at(link, at);
    }
    if at == link.len() || at as u64 != place {
        return NO_POSITION;
    }
    let (parent, length) = (at + PARENT_AT, length_at(link, at));
    *out = [
        big64(link, parent),
        big32(link, parent + ID_AT).into(),
        big32(link, parent + VERSION_AT).into(),
        (at + NAME_AT) as u64,
        (length - NAME_AT) as u64,
        (at + length) as u64,
    ];
    OK
}

/// Writes a linkEA.
pub fn link_write(
    fields: &[u64; LINK_HEADER],
    records: &[u64],
    names: &[u8],
    destination: &mut [u8],
    out: &mut u64,
) -> u32 {
    let &[count, total, time, padding] = fields;
    let (records, rest) = records.as_chunks::<LINK_WRITTEN>();
    let wide = [count, time, padding].iter().any(|&field| !fits(field));
    if !rest.is_empty() || records.len() as u64 != count || wide {
        return BAD_LINK;
    }
    if total_of(records, names) != Some(total) {
        return BAD_LINK;
    }
    if (destination.len() as u64) < total {
        return NO_ROOM;
    }
    put_header(fields, destination);
    let mut at = HEADER;
    for record in records {
        at += put_record(record, names, &mut destination[at..]);
    }
    *out = total;
    OK
}

/// The bytes of a linkEA of these records, if they are good.
fn total_of(records: &[[u64; LINK_WRITTEN]], names: &[u8]) -> Option<u64> {
    let mut bytes = HEADER as u64;
    for record in records {
        let name = name_of(record, names).filter(|_| fits(record[1]) && fits(record[2]))?;
        bytes += (NAME_AT + name.len()) as u64;
    }
    Some(bytes)
}

fn put_header(&[count, total, time, padding]: &[u64; LINK_HEADER], to: &mut [u8]) {
    to[MAGIC_AT..COUNT_AT].copy_from_slice(&MAGIC.to_le_bytes());
    to[COUNT_AT..TOTAL_AT].copy_from_slice(&(count as u32).to_le_bytes());
    to[TOTAL_AT..TIME_AT].copy_from_slice(&total.to_le_bytes());
    to[TIME_AT..PADDING_AT].copy_from_slice(&(time as u32).to_le_bytes());
    to[PADDING_AT..HEADER].copy_from_slice(&(padding as u32).to_le_bytes());
}

/// Writes a good record, and gives its length.
fn put_record(record: &[u64; LINK_WRITTEN], names: &[u8], to: &mut [u8]) -> usize {
    let &[sequence, id, version, start, length] = record;
    let name = &names[start as usize..][..length as usize];
    let to = &mut to[..NAME_AT + name.len()];
    let length = to.len() as u16;
    to[..PARENT_AT].copy_from_slice(&length.to_be_bytes());
    let (parent, rest) = to[PARENT_AT..].split_at_mut(NAME_AT - PARENT_AT);
    parent[..ID_AT].copy_from_slice(&sequence.to_be_bytes());
    parent[ID_AT..VERSION_AT].copy_from_slice(&(id as u32).to_be_bytes());
    parent[VERSION_AT..].copy_from_slice(&(version as u32).to_be_bytes());
    rest.copy_from_slice(name);
    length.into()
}

/// Whether bytes are a linkEA: header, then each record and its name, then the count.
pub(super) fn is_good(link: &[u8]) -> bool {
    if link.len() < HEADER
        || number32(link, MAGIC_AT) != MAGIC
        || number64(link, TOTAL_AT) != link.len() as u64
    {
        return false;
    }
    let (mut at, mut count) = (HEADER, 0);
    while at < link.len() {
        if link.len() - at < PARENT_AT {
            return false;
        }
        let length = length_at(link, at);
        if length < LEAST_RECORD || length > link.len() - at {
            return false;
        }
        if !is_good_name(&link[at + NAME_AT..at + length]) {
            return false;
        }
        at += length;
        count += 1;
    }
    number32(link, COUNT_AT) == count
}

/// The name of a record to be written, if it is one.
fn name_of<'names>(record: &[u64; LINK_WRITTEN], names: &'names [u8]) -> Option<&'names [u8]> {
    let &[_, _, _, start, length] = record;
    let end = start.checked_add(length)?;
    let name = names.get(start as usize..end as usize)?;
    let good = !name.is_empty() && name.len() <= MOST_NAME && is_good_name(name);
    good.then_some(name)
}

pub(super) fn is_good_name(name: &[u8]) -> bool {
    name.iter().all(|&byte| byte != b'/' && byte != 0)
}

fn fits(number: u64) -> bool {
    number <= u32::MAX.into()
}

/// The length that the record at a place says.
pub(super) fn length_at(link: &[u8], at: usize) -> usize {
    u16::from_be_bytes(link[at..at + 2].try_into().expect("2 bytes")).into()
}

pub(super) fn big32(bytes: &[u8], at: usize) -> u32 {
    u32::from_be_bytes(bytes[at..at + 4].try_into().expect("4 bytes"))
}

pub(super) fn big64(bytes: &[u8], at: usize) -> u64 {
    u64::from_be_bytes(bytes[at..at + 8].try_into().expect("8 bytes"))
}
