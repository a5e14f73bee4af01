//! The check of a call's input: everything that is wrong with it.

use std::collections::BTreeSet;

use crate::answer::{BAD_FID, BAD_LAYOUT, BAD_POLICY, BAD_TABLE, FID_TWICE, NO_POSITION};
use crate::fid::Fid;
use crate::layout::{LAST_OST, Layout};
use crate::position::Position;
use crate::tables::{
    Claim, OBJECT_BYTES, Object, Owner, PARENT_BYTES, Parent, RESERVE_BYTES, Tables,
};
use crate::take;

/// The most rows of the parent table.
pub const MOST_PARENTS: usize = 1024;
/// The most rows of the object table.
pub const MOST_OBJECTS: usize = 65_536;
/// The most entries of the reserve.
pub const MOST_RESERVE: usize = 65_536;
/// The greatest policy: create and adopt.
pub const LAST_POLICY: u64 = 3;

/// The numbers of everything that is wrong; the least of them is the answer.
pub type Faults = BTreeSet<u32>;

/// The tables in these bytes, and what is wrong with them. Rows that cannot be read are left
/// out as unused.
pub fn read_tables(parents: &[u8], objects: &[u8]) -> (Tables, Faults) {
    let mut faults = Faults::new();
    check_length(parents, PARENT_BYTES, MOST_PARENTS, &mut faults);
    check_length(objects, OBJECT_BYTES, MOST_OBJECTS, &mut faults);
    let mut parent_fids = BTreeSet::new();
    let mut object_fids = BTreeSet::new();
    let tables = Tables {
        parents: parents
            .chunks_exact(PARENT_BYTES)
            .map(|row| read_parent(row, &mut parent_fids, &mut faults))
            .collect(),
        objects: objects
            .chunks_exact(OBJECT_BYTES)
            .map(|row| read_object(row, &mut object_fids, &mut faults))
            .collect(),
    };
    (tables, faults)
}

/// Everything that is wrong with the input of a check or a run.
pub fn faults(
    parents: &[u8],
    objects: &[u8],
    reserve: &[u8],
    policy: u64,
    position: [u64; 3],
) -> Faults {
    let (tables, mut faults) = read_tables(parents, objects);
    read_reserve(reserve, &mut faults);
    if policy > LAST_POLICY {
        faults.insert(BAD_POLICY);
    }
    if !position_exists(position, &tables, &faults) {
        faults.insert(NO_POSITION);
    }
    faults
}

/// The FIDs of the reserve, and what is wrong with them.
pub fn read_reserve(reserve: &[u8], faults: &mut Faults) -> Vec<Fid> {
    check_length(reserve, RESERVE_BYTES, MOST_RESERVE, faults);
    let entries = reserve.chunks_exact(RESERVE_BYTES);
    let fids: Vec<Fid> = entries
        .filter_map(|mut entry| Fid::take(&mut entry))
        .collect();
    if fids.iter().any(|fid| fid.check().is_err()) {
        faults.insert(BAD_FID);
    }
    fids
}

/// Whole rows, and not too many.
fn check_length(table: &[u8], row: usize, most: usize, faults: &mut Faults) {
    if !table.len().is_multiple_of(row) || table.len() / row > most {
        faults.insert(BAD_TABLE);
    }
}

/// In rows that cannot be read any part may exist.
fn position_exists(position: [u64; 3], tables: &Tables, faults: &Faults) -> bool {
    let [stage, row, _] = position;
    let unread = faults.contains(&BAD_TABLE) || faults.contains(&BAD_LAYOUT);
    let judged = if unread && stage == 1 {
        [stage, row, 0]
    } else {
        position
    };
    Position::of_numbers(judged, tables).is_some()
}

/// A mark as it should be.
fn read_mark(mark: u8, faults: &mut Faults) -> bool {
    if mark > 1 {
        faults.insert(BAD_TABLE);
    }
    mark == 1
}

/// A row's own FID, which no earlier row of the table may have.
fn check_own(fid: Fid, known: &mut BTreeSet<Fid>, faults: &mut Faults) {
    if fid.check().is_err() {
        faults.insert(BAD_FID);
    }
    if !known.insert(fid) {
        faults.insert(FID_TWICE);
    }
}

fn read_parent(mut row: &[u8], known: &mut BTreeSet<Fid>, faults: &mut Faults) -> Option<Parent> {
    let [mark] = take::bytes(&mut row)?;
    if !read_mark(mark, faults) {
        return None;
    }
    let fid = Fid::take(&mut row)?;
    check_own(fid, known, faults);
    let owner = Owner::take(&mut row)?;
    let length = take::number16(&mut row)?;
    let layout = row.get(..length.into()).map(Layout::parse);
    let Some(Ok(layout)) = layout else {
        faults.insert(BAD_LAYOUT);
        return None;
    };
    Some(Parent { fid, owner, layout })
}

fn read_object(mut row: &[u8], known: &mut BTreeSet<Fid>, faults: &mut Faults) -> Option<Object> {
    let [mark] = take::bytes(&mut row)?;
    if !read_mark(mark, faults) {
        return None;
    }
    let fid = Fid::take(&mut row)?;
    check_own(fid, known, faults);
    let ost = take::number32(&mut row)?;
    let owner = Owner::take(&mut row)?;
    let claim = Claim::of_fid(Fid::take(&mut row)?);
    let [fresh] = take::bytes(&mut row)?;
    let fresh = read_mark(fresh, faults);
    let claim_bad = claim.is_some_and(|claim| claim.parent.check().is_err());
    if ost > LAST_OST || claim_bad || (fresh && claim.is_none()) {
        faults.insert(BAD_FID);
    }
    Some(Object {
        fid,
        ost,
        owner,
        claim,
        fresh,
    })
}
