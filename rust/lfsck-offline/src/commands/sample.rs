//! `sample`: a small case with every class in it, names with every finding, and a linkEA.

use std::path::Path;

use numbers::{call, layout, object, parent};

use super::sample_names::{NAMES, file, link, names};
use crate::case::Case;
use crate::fid::Fid;
use crate::hex;
use crate::json::Json;
use crate::outcome::{Failure, Outcome};
use crate::quoted;
use crate::save::SAMPLE_LINK;
use crate::tables::{Table, Tables, Together};

const ALICE: [u32; 2] = [1001, 100];
const ROOT: [u32; 2] = [0, 0];

/// The smallest stripe size.
const SMALLEST: u64 = layout::STRIPE_UNIT as u64;

/// Makes the case.
pub fn sample(directory: &Path, json: bool) -> Result<Outcome, Failure> {
    let (tables, names) = (tables(), names());
    Case::make_sample(directory, &tables, &names, dump().as_bytes())?;
    let rows = |table| (tables.rows(table).count() + names.count(table)) as u64;
    let [parents, objects, reserve] = Table::ALL.map(rows);
    let [entries, children] = Table::NAMES.map(rows);
    let text = if json {
        Json::Object(vec![
            ("directory", Json::text(directory.display())),
            ("parent_rows", Json::Number(parents)),
            ("object_rows", Json::Number(objects)),
            ("reserve_fids", Json::Number(reserve)),
            ("entry_rows", Json::Number(entries)),
            ("child_rows", Json::Number(children)),
            ("link", Json::text(SAMPLE_LINK)),
        ])
        .line()
    } else {
        format!(
            "A sample case is in {}: {parents} parent rows, {objects} object rows, \
             {reserve} FIDs in reserve; names: {entries} entries, {children} children; \
             and a linkEA, {SAMPLE_LINK}.\n",
            quoted::path(directory)
        )
    };
    Ok(Outcome {
        lasting: Some("the sample was made"),
        ..Outcome::done(text)
    })
}

/// An object's FID.
const fn object(id: u32) -> Fid {
    Fid::new(0x2_4000_0400, id)
}

/// A file to be written.
struct NewFile<'case> {
    fid: Fid,
    own: Fid,
    pattern: u64,
    stripe_size: u64,
    generation: u64,
    pool: &'case [u8],
    slots: &'case [Option<(Fid, u64)>],
}

/// A file that names these objects, each on its OST.
fn plain(fid: Fid, slots: &[Option<(Fid, u64)>]) -> NewFile<'_> {
    NewFile {
        fid,
        own: fid,
        pattern: layout::PLAIN.into(),
        stripe_size: 1 << 20,
        generation: 0,
        pool: b"",
        slots,
    }
}

/// The same, with holes.
fn with_holes(fid: Fid, slots: &[Option<(Fid, u64)>]) -> NewFile<'_> {
    NewFile {
        pattern: layout::HOLES.into(),
        ..plain(fid, slots)
    }
}

impl NewFile<'_> {
    /// The same with stripes of so many bytes.
    fn striped(self, stripe_size: u64) -> Self {
        NewFile {
            stripe_size,
            ..self
        }
    }
}

fn tables() -> Tables {
    let mut tables = Tables::default();
    add_files(&mut tables.parents);
    add_objects(&mut tables.objects);
    // A FID that is in use and a repeat are skipped.
    for id in [0x10, 0x80, 0x80, 0x81, 0x82] {
        tables.reserve.extend(object(id).to_bytes());
    }
    tables
}

fn add_files(parents: &mut Vec<u8>) {
    let clean = [Some((object(0x10), 0)), Some((object(0x11), 1))];
    add_file(parents, plain(file(1), &clean));
    let other = [Some((object(0x12), 2))];
    add_file(
        parents,
        NewFile {
            own: file(0x99),
            pool: b"flash\0\0\0\0\0\0\0\0\0\0\0",
            ..plain(file(2), &other)
        },
    );
    let shared = [Some((object(0x11), 1)), Some((object(0x13), 3))];
    add_file(parents, plain(file(3), &shared).striped(SMALLEST));
    add_file(parents, plain(file(4), &[Some((object(0x14), 0))]));
    let claims = [
        Some((object(0x15), 1)),
        Some((object(0x16), 2)),
        Some((object(0x17), 3)),
    ];
    add_file(parents, plain(file(5), &claims).striped(4 << 20));
    let holes = [Some((object(0x18), 0)), None];
    add_file(parents, with_holes(file(6), &holes));
    let fresh = [Some((object(0x19), 1)), Some((object(0x1a), 2))];
    add_file(parents, plain(file(7), &fresh));
    add_file(parents, plain(file(8), &[Some((object(0x1b), 0))]));
    // The objects of these two came back under exchanged OST indices. The first has the last
    // generation.
    add_file(
        parents,
        NewFile {
            generation: u16::MAX.into(),
            ..plain(file(10), &[Some((object(0x28), 1))])
        },
    );
    add_file(parents, plain(file(11), &[Some((object(0x29), 2))]));
    // A redirect of this slot was cut off after it had made 0x2b.
    add_file(parents, plain(file(13), &[Some((object(0x10), 0))]));
    parents.resize(parents.len() + 2 * parent::BYTES, 0);
}

fn add_objects(objects: &mut Vec<u8>) {
    let mut add = |id, ost, owner, claim, fresh| {
        add_object(objects, object(id), ost, owner, claim, fresh);
    };
    add(0x10, 0, ALICE, Some((1, 0)), false);
    add(0x11, 1, ALICE, Some((1, 1)), false);
    add(0x12, 2, ALICE, Some((2, 0)), false);
    add(0x13, 3, ALICE, Some((3, 1)), false);
    // 0x14, the object of file 4, is absent.
    add(0x15, 1, ALICE, None, false);
    add(0x16, 2, ALICE, Some((5, 0)), false);
    add(0x17, 3, ROOT, Some((5, 2)), false);
    add(0x18, 0, ALICE, Some((6, 0)), false);
    add(0x19, 1, ALICE, Some((7, 0)), false);
    add(0x1a, 2, ALICE, Some((7, 1)), true);
    // 0x1b, the object of file 8, is absent, and 0x24 claims its place.
    add(0x20, 3, ALICE, Some((6, 1)), false);
    add(0x21, 0, ROOT, Some((6, 3)), false);
    add(0x22, 1, ALICE, Some((9, 1)), false);
    add(0x23, 2, ALICE, Some((7, 1)), false);
    add(0x24, 0, ALICE, Some((8, 0)), false);
    add(0x25, 1, ALICE, Some((1, 0)), false);
    add(0x26, 2, ROOT, None, false);
    add(0x27, 3, ALICE, Some((1, 7)), true);
    add(0x28, 2, ALICE, Some((10, 0)), false);
    add(0x29, 1, ROOT, Some((11, 0)), false);
    // No file can be made that has this slot.
    add(0x2a, 3, ALICE, Some((12, layout::MOST_SLOTS as u32)), false);
    add(0x2b, 0, ALICE, Some((13, 0)), true);
    objects.resize(objects.len() + 3 * object::BYTES, 0);
}

fn add_file(parents: &mut Vec<u8>, file: NewFile) {
    let at = parents.len();
    parents.resize(at + parent::BYTES, 0);
    let row = &mut parents[at..];
    row[0] = 1;
    row[parent::SELF_AT..parent::OWNER_AT].copy_from_slice(&file.fid.to_bytes());
    let owner = ALICE.map(u32::to_le_bytes).concat();
    row[parent::OWNER_AT..parent::LENGTH_AT].copy_from_slice(&owner);
    let fields = [
        if file.pool.is_empty() { 1 } else { 3 },
        file.pattern,
        file.own.id.into(),
        file.own.sequence,
        file.stripe_size,
        file.slots.len() as u64,
        file.generation,
    ];
    let slots: Vec<u64> = file.slots.iter().copied().flat_map(numbers).collect();
    let mut length = [0];
    let room = &mut row[parent::LAYOUT_AT..];
    let answer = lfsck_sys::layout_write(&fields, file.pool, &slots, room, &mut length);
    assert_eq!(answer, 0, "the library writes the sample's layouts");
    row[parent::LENGTH_AT..parent::LAYOUT_AT].copy_from_slice(&(length[0] as u16).to_le_bytes());
}

/// The five numbers of a slot.
fn numbers(slot: Option<(Fid, u64)>) -> [u64; call::SLOT] {
    match slot {
        None => [0; call::SLOT],
        Some((fid, ost)) => [1, fid.sequence, fid.id.into(), 0, ost],
    }
}

/// Adds an object that claims a slot of the file of that id.
fn add_object(
    objects: &mut Vec<u8>,
    fid: Fid,
    ost: u32,
    owner: [u32; 2],
    claim: Option<(u32, u32)>,
    fresh: bool,
) {
    let claim = claim.map_or(Fid::new(0, 0), |(id, index)| Fid {
        version: index,
        ..file(id)
    });
    objects.push(1);
    objects.extend(fid.to_bytes());
    objects.extend(ost.to_le_bytes());
    objects.extend(owner[0].to_le_bytes());
    objects.extend(owner[1].to_le_bytes());
    objects.extend(claim.to_bytes());
    objects.push(fresh.into());
}

/// The linkEA of file 1 as getfattr prints it in hexadecimal digits.
fn dump() -> String {
    let digits = hex::encode(&link(&NAMES));
    format!("# file: home/alice/report.txt\ntrusted.link=0x{digits}\n\n")
}
