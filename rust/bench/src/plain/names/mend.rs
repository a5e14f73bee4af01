//! The four sweeps.

use std::collections::HashMap;

use numbers::answer::{LINK_FULL, OK};
use numbers::call::MENDED;
use numbers::fid::{ID_AT, VERSION_AT};
use numbers::link::{COUNT_AT, HEADER, MAGIC, MAGIC_AT, NAME_AT, PARENT_AT, TIME_AT, TOTAL_AT};
use numbers::{child, entry};

use super::rows::{
    child_of, directory_of, has_record, is_of, link_of, name_of, own_of, parent_of, put_fid,
};
use super::{directories, is_visible, visible_entries};
use crate::plain::bytes::{Fid, NO_FID, number16, number32, row_mut};
use crate::plain::link::length_at;

/// Mends sound tables under good marks.
pub fn mend(
    entries: &mut [u8],
    children: &mut [u8],
    marks: &[u64],
    report: &mut [u64; MENDED],
) -> u32 {
    let directories = directories(children, marks);
    let visible = visible_entries(entries, &directories);
    let taken = take_self_fids(entries, children, &visible);
    let written = write_entry_fids(entries, children, &visible);
    let rows = entries.len() / entry::BYTES;
    let (appended, stopped) = append_records(entries, children, &visible);
    let removed = match stopped {
        None => remove_records(entries, children, &directories),
        Some(_) => 0,
    };
    let end = stopped.unwrap_or(rows) as u64;
    *report = [taken, written, appended, removed, end];
    if stopped.is_none() { OK } else { LINK_FULL }
}

fn take_self_fids(entries: &[u8], children: &mut [u8], visible: &[bool]) -> u64 {
    let mut taken = 0;
    for (row, _) in rows_of(entries, visible) {
        let child = row_mut(children, child::BYTES, child_of(row));
        let fid = Fid::read(row, entry::FID_AT);
        if own_of(child) == NO_FID && fid != NO_FID {
            fid.write(child, child::SELF_AT);
            taken += 1;
        }
    }
    taken
}

fn write_entry_fids(entries: &mut [u8], children: &[u8], visible: &[bool]) -> u64 {
    let mut written = 0;
    for (row, &is_visible) in entries.chunks_exact_mut(entry::BYTES).zip(visible) {
        let own = own_of(&children[child::BYTES * child_of(row)..]);
        if is_visible && own != NO_FID && Fid::read(row, entry::FID_AT) != own {
            put_fid(row, own);
            written += 1;
        }
    }
    written
}

/// How many were appended, and the entry whose record doesn't fit.
fn append_records(entries: &[u8], children: &mut [u8], visible: &[bool]) -> (u64, Option<usize>) {
    let mut appended = 0;
    for (row, at) in rows_of(entries, visible) {
        let child = row_mut(children, child::BYTES, child_of(row));
        if own_of(child) == NO_FID || has_record(link_of(child), row) {
            continue;
        }
        if !append(child, row) {
            return (appended, Some(at));
        }
        appended += 1;
    }
    (appended, None)
}

/// Entries of visible directories, with their row numbers.
fn rows_of<'table>(
    entries: &'table [u8],
    visible: &'table [bool],
) -> impl Iterator<Item = (&'table [u8], usize)> {
    let rows = entries.chunks_exact(entry::BYTES).zip(0..);
    rows.filter(|(_, at)| visible[*at])
}

/// Appends the record of an entry, if it fits.
fn append(child: &mut [u8], entry: &[u8]) -> bool {
    let name = name_of(entry);
    let length = link_of(child).len();
    let from = length.max(HEADER);
    let to = from + NAME_AT + name.len();
    if to > child::ROOM {
        return false;
    }
    let room = &mut child[child::LINK_AT..];
    if length == 0 {
        room[..HEADER].fill(0);
        room[MAGIC_AT..COUNT_AT].copy_from_slice(&MAGIC.to_le_bytes());
    }
    put_record(&mut room[from..to], parent_of(entry), name);
    let count = number32(room, COUNT_AT) + 1;
    resize(child, count, to);
    true
}

fn put_record(record: &mut [u8], parent: Fid, name: &[u8]) {
    let length = record.len() as u16;
    record[..PARENT_AT].copy_from_slice(&length.to_be_bytes());
    let (fid, rest) = record[PARENT_AT..].split_at_mut(NAME_AT - PARENT_AT);
    fid[..ID_AT].copy_from_slice(&parent.sequence.to_be_bytes());
    fid[ID_AT..VERSION_AT].copy_from_slice(&parent.id.to_be_bytes());
    fid[VERSION_AT..].copy_from_slice(&parent.version.to_be_bytes());
    rest.copy_from_slice(name);
}

/// Gives a linkEA another count and length. The room past it becomes zero.
fn resize(child: &mut [u8], count: u32, length: usize) {
    child[child::LENGTH_AT..child::LINK_AT].copy_from_slice(&(length as u16).to_le_bytes());
    let room = &mut child[child::LINK_AT..];
    room[COUNT_AT..TOTAL_AT].copy_from_slice(&count.to_le_bytes());
    room[TOTAL_AT..TIME_AT].copy_from_slice(&(length as u64).to_le_bytes());
    room[length..].fill(0);
}

fn remove_records(entries: &[u8], children: &mut [u8], directories: &HashMap<Fid, bool>) -> u64 {
    let of_child = entries_of(entries, children.len() / child::BYTES);
    let mut removed = 0;
    for (row, of_child) in children.chunks_exact_mut(child::BYTES).zip(of_child) {
        if own_of(row) != NO_FID && number16(row, child::LENGTH_AT) > 0 {
            removed += remove_from(row, &of_child, directories);
        }
    }
    removed
}

/// The entries of each child.
fn entries_of(entries: &[u8], children: usize) -> Vec<Vec<&[u8]>> {
    let mut of_child = vec![Vec::new(); children];
    for row in entries.chunks_exact(entry::BYTES) {
        of_child[child_of(row)].push(row);
    }
    of_child
}

/// Moves the records that stay to the front, and tells how many went.
fn remove_from(row: &mut [u8], entries: &[&[u8]], directories: &HashMap<Fid, bool>) -> u64 {
    let end = link_of(row).len();
    let room = &mut row[child::LINK_AT..];
    let (mut at, mut kept, mut removed) = (HEADER, HEADER, 0);
    while at < end {
        let length = length_at(room, at);
        let record = &room[at..at + length];
        let stays = !is_visible(directory_of(record), directories)
            || (entries.iter().any(|entry| is_of(record, entry))
                && !stands_in(&room[..kept], record));
        if stays {
            room.copy_within(at..at + length, kept);
            kept += length;
        } else {
            removed += 1;
        }
        at += length;
    }
    if removed > 0 {
        let count = number32(room, COUNT_AT) - removed;
        resize(row, count, kept);
    }
    removed.into()
}

/// Whether a linkEA has a record.
fn stands_in(link: &[u8], record: &[u8]) -> bool {
    super::rows::records(link).any(|other| other == record)
}
