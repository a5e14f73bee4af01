//! The keeper of an object, and how many slots were compared to find it.

use super::check::least;
use super::hand_out;
use crate::answer::{BAD_FID, DONE};
use crate::check::read_tables;
use crate::fid::Fid;
use crate::search::Search;

/// Hands out the keeper of an object, 4 numbers: 1, its parent row and its slot, or three zeros
/// where no slot names the object; then how many slots were compared.
pub fn keeper(parents: &[u8], objects: &[u8], sequence: u64, id: u64, out: &mut [u64]) -> u32 {
    let (tables, mut faults) = read_tables(parents, objects);
    let object = object_of(sequence, id);
    if object.is_none() {
        faults.insert(BAD_FID);
    }
    match (least(&faults), object) {
        (DONE, Some(object)) => hand_out(&numbers_of(&Search::of(&tables, object)), out),
        (refusal, _) => refusal,
    }
}

/// The good FID of version 0 that has these numbers.
fn object_of(sequence: u64, id: u64) -> Option<Fid> {
    let fid = Fid::new(sequence, id.try_into().ok()?);
    fid.check().is_ok().then_some(fid)
}

fn numbers_of(search: &Search) -> [u64; 4] {
    let compared = search.compared.len() as u64;
    match search.keeper {
        Some((keeper, _)) => [1, keeper.row as u64, keeper.slot as u64, compared],
        None => [0, 0, 0, compared],
    }
}
