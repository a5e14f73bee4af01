//! LinkEAs for the children of a namespace.

use super::random_record;
use crate::Random;
use reference::fid::Fid;
use reference::link::{BEFORE_NAME, Link, Record};
use reference::names::{LINK_ROOM, Namespace};

/// None, or one with most records of the child's entries, others and repeats.
pub fn random_link(
    names: &Namespace,
    row: usize,
    fids: &[Fid],
    random: &mut Random,
) -> Option<Link> {
    if random.one_in(2) {
        return None;
    }
    let mut link = Link {
        time: random.any() as u32,
        padding: random.any() as u32,
        records: Vec::new(),
    };
    if random.one_in(6) {
        return Some(link);
    }
    let entries = names.entries.iter().filter(|entry| entry.child == row);
    let present = entries.filter(|_| !random.one_in(3));
    link.records
        .extend(present.map(|entry| entry.record.clone()));
    let others = random.below(3);
    let others = (0..others).map(|_| random_record(fids, random));
    link.records.extend(others);
    repeat(&mut link.records, random);
    if random.one_in(3) {
        fill(&mut link, names, row, fids, random);
    }
    if random.one_in(2) {
        random.shuffle(&mut link.records);
    }
    Some(link)
}

/// Now and then some records again.
fn repeat(records: &mut Vec<Record>, random: &mut Random) {
    while !records.is_empty() && random.one_in(3) {
        let again = records[random.below(records.len())].clone();
        records.push(again);
    }
}

/// Adds a record, so that the missing ones just fit or just don't, or none does.
fn fill(link: &mut Link, names: &Namespace, row: usize, fids: &[Fid], random: &mut Random) {
    let missing = missing_lengths(link, names, row);
    let count = missing.len();
    let fitting: usize = missing[..random.below(count + 1)].iter().sum();
    let left = (fitting + random.pick(&[0, 0, 1, 18])).saturating_sub(random.below(2));
    let bytes = (LINK_ROOM - left).saturating_sub(link.total());
    if bytes > BEFORE_NAME {
        let Record { parent, .. } = random_record(fids, random);
        let name = vec![b'f'; bytes - BEFORE_NAME];
        link.records.push(Record { parent, name });
    }
}

/// The lengths of the records that entries of a child have and its linkEA lacks, each once, in the
/// order of the entries.
fn missing_lengths(link: &Link, names: &Namespace, row: usize) -> Vec<usize> {
    let mut missing: Vec<&Record> = Vec::new();
    for entry in names.entries.iter().filter(|entry| entry.child == row) {
        let record = &entry.record;
        if !link.records.contains(record) && !missing.contains(&record) {
            missing.push(record);
        }
    }
    missing.into_iter().map(Record::length).collect()
}
