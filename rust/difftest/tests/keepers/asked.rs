//! The FIDs that are asked for.

use std::collections::BTreeSet;

use difftest::Random;
use difftest::tables::{FILES, OBJECTS};
use reference::fid::{FIRST_SEQUENCE, Fid};
use reference::tables::Tables;

/// Where a FID comes from.
#[derive(Clone, Copy, Debug, PartialEq, Eq, PartialOrd, Ord)]
pub enum Asked {
    /// A slot names it or an object has it.
    Known,
    /// A file has it, or could.
    File,
    /// The id of a known one with a sequence of its own.
    OtherSequence,
    /// The sequence of a known one with an id of its own.
    OtherId,
    /// The sequence is too low.
    SequenceLow,
    /// The sequence is too high.
    SequenceHigh,
    /// The id is 0.
    IdZero,
    /// The id is above 32 bits, the low ones those of a known FID.
    IdWide,
    /// The id is above 32 bits, the low ones 0.
    IdWideZero,
}

use Asked::*;

impl Asked {
    /// All of them.
    pub const ALL: [Asked; 9] = [
        Known,
        File,
        OtherSequence,
        OtherId,
        SequenceLow,
        SequenceHigh,
        IdZero,
        IdWide,
        IdWideZero,
    ];

    /// Whether the FID is not good.
    pub fn is_bad(self) -> bool {
        self >= SequenceLow
    }
}

/// The FIDs that slots name and objects have.
pub fn known(tables: &Tables) -> BTreeSet<Fid> {
    let files = tables.parents.iter().flatten();
    let stripes = files.flat_map(|file| file.layout.slots.iter().flatten());
    let objects = tables.objects.iter().flatten();
    let named = stripes.map(|stripe| stripe.object);
    named.chain(objects.map(|object| object.fid)).collect()
}

/// Every known FID, one that only files have, two that differ from a known one in one number, and
/// one of each kind that is not good.
pub fn questions(tables: &Tables, random: &mut Random) -> Vec<(Asked, [u64; 2])> {
    let known: Vec<Fid> = known(tables).into_iter().collect();
    let near = random.pick(match known.len() {
        0 => &OBJECTS[..],
        _ => &known[..],
    });
    let mut all: Vec<(Asked, [u64; 2])> = known
        .iter()
        .map(|fid| (Known, [fid.sequence, fid.id.into()]))
        .collect();
    let file = random.pick(&FILES);
    all.push((File, [file.sequence, file.id.into()]));
    let bit = random.pick(&[2, 1 << 40, 1 << 63]);
    all.push((OtherSequence, [near.sequence ^ bit, near.id.into()]));
    let bit = random.pick(&[4, 1 << 16, 1 << 31]);
    all.push((OtherId, [near.sequence, (near.id ^ bit).into()]));
    let bad = Asked::ALL.into_iter().filter(|asked| asked.is_bad());
    all.extend(bad.map(|asked| (asked, asked.numbers(near, random))));
    all
}

/// A FID that is not good, made of a known one.
pub fn bad_fid(near: Fid, random: &mut Random) -> (Asked, [u64; 2]) {
    let asked = random.pick(&[SequenceLow, SequenceHigh, IdZero, IdWide, IdWideZero]);
    (asked, asked.numbers(near, random))
}

impl Asked {
    /// The numbers of a FID of a kind that is not good.
    fn numbers(self, near: Fid, random: &mut Random) -> [u64; 2] {
        let Fid { sequence, id, .. } = near;
        let wide = random.pick(&[1, 2, 1 << 31, u64::from(u32::MAX)]) << 32;
        match self {
            SequenceLow => [
                random.pick(&[0, 1, sequence & 0xffff_ffff, FIRST_SEQUENCE - 1]),
                id.into(),
            ],
            SequenceHigh => [u64::MAX, id.into()],
            IdZero => [sequence, 0],
            IdWide => [sequence, wide | u64::from(id)],
            IdWideZero => [sequence, wide],
            Known | File | OtherSequence | OtherId => unreachable!("{self:?} is good"),
        }
    }
}
