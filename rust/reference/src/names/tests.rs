//! The namespace check by its sentences, one test each.

mod check;
mod findings;
mod judging;
mod lent;
mod mending;

use super::*;
use crate::fid::Fid;
use crate::link::{Link, Record};

/// Three FIDs of children, and one that no row has.
const A: Fid = Fid::new(0x2_0000_0401, 1);
const B: Fid = Fid::new(0x2_0000_0401, 2);
const C: Fid = Fid::new(0x2_0000_0402, 1);
const OUTSIDE: Fid = Fid::new(0x2_0000_0999, 9);
const NO_FID: Fid = Fid::new(0, 0);

/// An entry; a zero FID is none.
fn entry(parent: Fid, child: usize, fid: Fid, name: &[u8]) -> Entry {
    Entry {
        record: record(parent, name),
        child,
        fid: rows::some(fid),
    }
}

/// A child; a zero FID is none.
fn child(own: Fid, up: Fid, link: Option<Link>) -> Child {
    Child {
        own: rows::some(own),
        up: rows::some(up),
        link,
    }
}

fn record(parent: Fid, name: &[u8]) -> Record {
    Record {
        parent,
        name: name.to_vec(),
    }
}

/// A linkEA with a time and a padding.
fn link(records: &[(Fid, &[u8])]) -> Option<Link> {
    let records = records.iter().map(|(parent, name)| record(*parent, name));
    Some(Link {
        time: 7,
        padding: 8,
        records: records.collect(),
    })
}

/// The linkEA that a child without one gets.
fn made(records: &[(Fid, &[u8])]) -> Option<Link> {
    link(records).map(|link| Link {
        time: 0,
        padding: 0,
        ..link
    })
}

/// A linkEA of so many bytes: records, then one that fills the rest.
fn filled(bytes: usize, records: &[(Fid, &[u8])], filler: Fid) -> Option<Link> {
    let mut link = link(records)?;
    let rest = bytes - link.total() - record(filler, b"").length();
    link.records.push(record(filler, &vec![b'f'; rest]));
    Some(link)
}

fn names(entries: &[Entry], children: &[Child]) -> Namespace {
    Namespace {
        entries: entries.to_vec(),
        children: children.to_vec(),
    }
}

/// Both tables, what the rules don't speak of filled with bytes of its own.
fn to_bytes(names: &Namespace) -> (Vec<u8>, Vec<u8>) {
    let mut entries = vec![0xab; ENTRY_BYTES * names.entries.len()];
    let mut children = vec![0xcd; CHILD_BYTES * names.children.len()];
    names.write_entries(&mut entries);
    names.write_children(&mut children);
    (entries, children)
}

/// What a pass makes of a namespace that can be judged.
fn passed(before: &Namespace) -> (Namespace, Mended) {
    let marks = judge(before).expect("no climb is too long");
    let mut after = before.clone();
    let mended = mend(&mut after, &marks);
    (after, mended)
}

/// A pass that changes nothing.
fn expect_unchanged(before: &Namespace) {
    let (after, mended) = passed(before);
    assert_eq!((&after, mended), (before, Mended::default()));
}
