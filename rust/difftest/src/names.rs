//! Random namespaces from few FIDs and few names, so that entries, children, records and `..` meet.

mod chain;
mod flaw;
mod lent;
mod link;

use crate::Random;
pub use chain::{Top, chain};
pub use flaw::{Call, Flaw};
pub use lent::{Lent, describe, to_bytes};
use reference::fid::Fid;
use reference::link::Record;
use reference::names::{Child, Entry, MOST_NAME, Namespace, ROOT};

/// FIDs of children. Some differ in one field alone, and some from ROOT or from none.
pub const FIDS: [Fid; 7] = [
    Fid::new(0x2_0000_0401, 1),
    Fid::new(0x2_0000_0401, 2),
    Fid {
        sequence: 0x2_0000_0401,
        id: 1,
        version: 1,
    },
    Fid::new(0x2_0000_0402, 1),
    Fid::new(0x2_0000_0007, 2),
    Fid {
        sequence: 0,
        id: 0,
        version: 1,
    },
    Fid {
        sequence: u64::MAX,
        id: u32::MAX,
        version: u32::MAX,
    },
];
/// No row has this FID.
pub const OUTSIDE: Fid = Fid::new(0x2_0000_0999, 9);
/// Where there is no FID.
const NO_FID: Fid = Fid::new(0, 0);

/// The longest name.
const LONG: [u8; MOST_NAME] = [b'n'; MOST_NAME];
const NAMES: [&[u8]; 6] = [b"a", b"b", b"ab", b"..", b"\xff\n \\", &LONG];

/// The most rows of either table where there are few.
const FEW_CHILDREN: usize = 6;
const FEW_ENTRIES: usize = 8;
/// The most rows of either table where there are many.
const MANY: usize = 400;

/// A few entries and children. The first so many FIDs are drawn from.
pub fn random_names(random: &mut Random) -> Namespace {
    let fids = &FIDS[..2 + random.below(FIDS.len() - 1)];
    names_of([FEW_CHILDREN, FEW_ENTRIES], fids, random)
}

/// Many entries and children, of about as many FIDs.
pub fn wide_names(random: &mut Random) -> Namespace {
    let fid = |number: u32| Fid::new(0x2_0000_0400 + u64::from(number % 3), number / 3 + 1);
    let mut fids: Vec<Fid> = (0..MANY as u32).map(fid).collect();
    random.shuffle(&mut fids);
    fids.extend(FIDS);
    names_of([MANY, MANY], &fids, random)
}

/// At most so many children and entries.
fn names_of([children, entries]: [usize; 2], fids: &[Fid], random: &mut Random) -> Namespace {
    let rows = row_count(children, random);
    let children: Vec<Child> = (0..rows).map(|_| random_child(fids, random)).collect();
    let entries = match rows {
        0 => 0,
        _ => row_count(entries, random),
    };
    let entries = (0..entries).map(|_| random_entry(&children, fids, random));
    let mut names = Namespace {
        entries: entries.collect(),
        children,
    };
    for row in 0..rows {
        names.children[row].link = link::random_link(&names, row, fids, random);
    }
    if random.one_in(5) {
        put_in_chain(&mut names.children, random);
    }
    names
}

/// Puts each child in the one before it, most of them without linkEA.
fn put_in_chain(children: &mut [Child], random: &mut Random) {
    let mut above = random.pick(&[None, Some(ROOT), Some(OUTSIDE)]);
    for child in children {
        child.up = above;
        above = child.own.or(above);
        if !random.one_in(4) {
            child.link = None;
        }
    }
}

/// Rather many than few.
fn row_count(most: usize, random: &mut Random) -> usize {
    random.below(most + 1).max(random.below(most + 1))
}

/// A child without linkEA.
fn random_child(fids: &[Fid], random: &mut Random) -> Child {
    let own = match random.below(12) {
        0..3 => None,
        3 => Some(ROOT),
        _ => Some(random.pick(fids)),
    };
    let up = match random.below(8) {
        0 => None,
        1..4 => Some(ROOT),
        4 => Some(OUTSIDE),
        _ => Some(random.pick(fids)),
    };
    Child {
        own,
        up,
        link: None,
    }
}

fn random_entry(children: &[Child], fids: &[Fid], random: &mut Random) -> Entry {
    let child = random.below(children.len());
    let fid = match random.below(6) {
        0 => None,
        1 => Some(random.pick(fids)),
        2 if children[child].own.is_none() => Some(random.pick(fids)),
        _ => children[child].own,
    };
    Entry {
        record: random_record(fids, random),
        child,
        fid,
    }
}

/// Mostly in ROOT or a directory that a row may be.
fn random_record(fids: &[Fid], random: &mut Random) -> Record {
    let parent = match random.below(16) {
        0 => NO_FID,
        1 => OUTSIDE,
        2..8 => ROOT,
        _ => random.pick(fids),
    };
    Record {
        parent,
        name: random.pick(&NAMES).to_vec(),
    }
}
