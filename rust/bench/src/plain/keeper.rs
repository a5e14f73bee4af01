//! The keeper of an object, and the slots compared.

use numbers::answer::{BAD_FID, FID_TWICE, OK};
use numbers::call::{END, KEEPER};

use super::bytes::{Fid, NO_FID};
use super::check::check;
use super::search::{self, claim_of, object_row};

/// Checks the input, the FID that is asked for before a FID twice, then searches.
pub fn keeper(
    parents: &[u8],
    objects: &[u8],
    sequence: u64,
    id: u64,
    out: &mut [u64; KEEPER],
) -> u32 {
    let asked = good_fid(sequence, id);
    match check(parents, objects, &[], 0, END) {
        OK | FID_TWICE if asked.is_none() => return BAD_FID,
        OK => (),
        refusal => return refusal,
    }
    if let Some(fid) = asked {
        *out = numbers_of(parents, objects, fid);
    }
    OK
}

/// The FID with these numbers, if it is good.
fn good_fid(sequence: u64, id: u64) -> Option<Fid> {
    let fid = Fid {
        sequence,
        id: id.try_into().ok()?,
        version: 0,
    };
    fid.is_good().then_some(fid)
}

fn numbers_of(parents: &[u8], objects: &[u8], fid: Fid) -> [u64; KEEPER] {
    let object = object_row(objects, fid);
    let claim = object.map_or(NO_FID, |at| claim_of(objects, at));
    let search = search::keeper(parents, fid, claim);
    let compared = search.compared as u64;
    match search.found {
        Some((row, slot)) => [1, row as u64, slot as u64, compared],
        None => [0, 0, 0, compared],
    }
}
