//! What the rows of sound tables say.

use std::fmt;

use numbers::answer::OK;
use numbers::layout::{
    COUNT_AT, SLOT_BYTES, SLOT_GENERATION_AT, SLOT_OST_AT, STRIPE_SIZE_AT, STRIPE_UNIT,
};
use numbers::{call, layout, object, parent};

use crate::fid::{Fid, MdtFid, OstFid, number16, number32};

/// A uid and a gid, written `500:600`.
#[derive(Clone, Copy, Debug, PartialEq, Eq)]
pub struct Owner {
    /// The user.
    pub uid: u32,
    /// The group.
    pub gid: u32,
}

/// The slot that an object says it belongs to.
#[derive(Clone, Copy, Debug, PartialEq, Eq, Hash)]
pub struct Claim {
    /// The file.
    pub file: MdtFid,
    /// The stripe index.
    pub index: u32,
}

/// A slot that names an object.
#[derive(Clone, Copy, Debug, PartialEq, Eq)]
pub struct Stripe {
    /// The object.
    pub object: OstFid,
    /// The slot's generation.
    pub generation: u64,
    /// The OST index.
    pub ost: u64,
}

/// The FID in a layout: of its own file, if all is well. Its id has 64 bits.
#[derive(Clone, Copy, Debug, PartialEq, Eq)]
pub struct OwnFid {
    /// The sequence.
    pub sequence: u64,
    /// The id.
    pub id: u64,
}

/// The header of a layout.
#[derive(Clone, Copy, Debug, PartialEq, Eq)]
pub struct Header {
    /// 1 or 3.
    pub version: u64,
    /// The pattern.
    pub pattern: u64,
    /// The file that the layout says it belongs to.
    pub own: OwnFid,
    /// The stripe size in bytes.
    pub stripe_size: u32,
    /// The generation.
    pub generation: u64,
}

/// A used parent row.
#[derive(Clone, Debug, PartialEq, Eq)]
pub struct File {
    /// Its own FID.
    pub fid: MdtFid,
    /// Its owner.
    pub owner: Owner,
    /// Its layout's header.
    pub header: Header,
    /// Its slots; a hole is `None`.
    pub slots: Vec<Option<Stripe>>,
}

/// A used object row.
#[derive(Clone, Copy, Debug, PartialEq, Eq)]
pub struct Object {
    /// Its own FID.
    pub fid: OstFid,
    /// The OST index.
    pub ost: u32,
    /// Its owner.
    pub owner: Owner,
    /// Its claim, if it has one.
    pub claim: Option<Claim>,
    /// Made empty by a repair and not written since.
    pub fresh: bool,
}

impl Owner {
    fn read(row: &[u8], at: usize) -> Owner {
        Owner {
            uid: number32(row, at),
            gid: number32(row, at + 4),
        }
    }
}

impl Header {
    /// Whether slots may be holes.
    pub fn holes_allowed(&self) -> bool {
        self.pattern == u64::from(layout::HOLES)
    }
}

impl Claim {
    /// The claim in a FID whose version is the stripe index; zeros are none.
    pub fn of_fid(fid: Fid) -> Option<Claim> {
        (fid != Fid::new(0, 0)).then_some(Claim {
            file: MdtFid(Fid::new(fid.sequence, fid.id)),
            index: fid.version,
        })
    }
}

/// The generation of a layout that is raised; its field has 16 bits.
pub fn raised(generation: u64) -> u64 {
    (generation as u16).wrapping_add(1).into()
}

/// How often a generation was raised to become another one. No run raises it as often as its field
/// has values.
pub fn raises(old: u64, new: u64) -> u64 {
    (new as u16).wrapping_sub(old as u16).into()
}

/// A number of slots in words.
pub fn slots_words(count: usize) -> String {
    match count {
        1 => "1 slot".to_string(),
        _ => format!("{count} slots"),
    }
}

/// The used mark.
fn is_used(row: &[u8]) -> bool {
    row[0] == 1
}

impl File {
    /// The file in a row, none where the row is unused. The library reads the layout, whatever its
    /// stripe size.
    pub fn read(row: &[u8]) -> Option<File> {
        if !is_used(row) {
            return None;
        }
        let length = usize::from(number16(row, parent::LENGTH_AT));
        let layout = row[parent::LAYOUT_AT..].get(..length)?;
        let [version, pattern, id, sequence, _, _, generation, start] =
            fields(layout).or_else(|| fields_of_any_size(layout))?;
        Some(File {
            fid: MdtFid(Fid::read(row, parent::SELF_AT)),
            owner: Owner::read(row, parent::OWNER_AT),
            header: Header {
                version,
                pattern,
                own: OwnFid { sequence, id },
                stripe_size: number32(layout, STRIPE_SIZE_AT),
                generation,
            },
            slots: slots(&layout[start as usize..]),
        })
    }
}

/// A header as the library reads it; none where it refuses the layout.
fn fields(layout: &[u8]) -> Option<[u64; call::HEADER_READ]> {
    let mut fields = [0; call::HEADER_READ];
    (lfsck_sys::layout_read(layout, &mut fields) == OK).then_some(fields)
}

/// The same of a layout that is refused for its stripe size alone. Editions before 2026-08 took any
/// size, so the log of a run may have such a layout.
fn fields_of_any_size(layout: &[u8]) -> Option<[u64; call::HEADER_READ]> {
    let mut other = layout.to_vec();
    let size = other.get_mut(STRIPE_SIZE_AT..COUNT_AT)?;
    size.copy_from_slice(&STRIPE_UNIT.to_le_bytes());
    fields(&other)
}

/// The slots of a layout that the library has read. It would read the whole layout again for each.
fn slots(bytes: &[u8]) -> Vec<Option<Stripe>> {
    bytes.chunks_exact(SLOT_BYTES).map(slot).collect()
}

/// A slot; none where it is a hole.
fn slot(bytes: &[u8]) -> Option<Stripe> {
    let is_hole = bytes.iter().all(|&byte| byte == 0);
    (!is_hole).then(|| Stripe {
        object: OstFid(Fid::read(bytes, 0)),
        generation: number32(bytes, SLOT_GENERATION_AT).into(),
        ost: number32(bytes, SLOT_OST_AT).into(),
    })
}

impl Object {
    /// The object in a row, none where the row is unused.
    pub fn read(row: &[u8]) -> Option<Object> {
        is_used(row).then(|| Object {
            fid: OstFid(Fid::read(row, object::SELF_AT)),
            ost: number32(row, object::OST_AT),
            owner: Owner::read(row, object::OWNER_AT),
            claim: Claim::of_fid(Fid::read(row, object::CLAIM_AT)),
            fresh: row[object::FRESH_AT] == 1,
        })
    }
}

impl fmt::Display for Owner {
    fn fmt(&self, out: &mut fmt::Formatter<'_>) -> fmt::Result {
        write!(out, "{}:{}", self.uid, self.gid)
    }
}

impl fmt::Display for OwnFid {
    fn fmt(&self, out: &mut fmt::Formatter<'_>) -> fmt::Result {
        write!(out, "sequence {:#x} and id {:#x}", self.sequence, self.id)
    }
}

impl fmt::Display for Claim {
    fn fmt(&self, out: &mut fmt::Formatter<'_>) -> fmt::Result {
        write!(out, "slot {} of {}", self.index, self.file)
    }
}

#[cfg(test)]
mod tests {
    use difftest::Random;
    use difftest::tables::Shape;

    use super::*;
    use crate::tables::{Table, Tables, Together};

    const SHAPE: Shape = Shape {
        parents: 4,
        objects: 2,
        slots: 6,
        files: 4,
        fids: 6,
    };

    /// A slot as the library reads it.
    fn told(layout: &[u8], index: u64) -> Option<Stripe> {
        let mut numbers = [0; call::SLOT];
        assert_eq!(lfsck_sys::layout_slot(layout, index, &mut numbers), 0);
        let [named, sequence, id, generation, ost] = numbers;
        (named == 1).then_some(Stripe {
            object: OstFid(Fid::new(sequence, id as u32)),
            generation,
            ost,
        })
    }

    #[test]
    fn the_slots_are_those_that_the_library_reads() {
        let mut random = Random::for_test("slots");
        let (mut named, mut holes) = (0, 0);
        for _ in 0..1_000 {
            let tables = Tables::random(SHAPE, &mut random);
            for row in tables.rows(Table::Parents) {
                let Some(file) = File::read(row) else {
                    continue;
                };
                let length = usize::from(number16(row, parent::LENGTH_AT));
                let layout = &row[parent::LAYOUT_AT..][..length];
                let count = file.slots.len() as u64;
                let slots: Vec<_> = (0..count).map(|index| told(layout, index)).collect();
                assert_eq!(file.slots, slots);
                let mut numbers = [0; call::SLOT];
                assert_ne!(lfsck_sys::layout_slot(layout, count, &mut numbers), 0);
                named += slots.iter().flatten().count();
                holes += slots.iter().filter(|slot| slot.is_none()).count();
            }
        }
        assert!(named > 1_000 && holes > 100, "{named} and {holes}");
    }

    /// The stripe size is the library's where it reads the layout, and what stands there where it
    /// doesn't; nothing else of the file is another.
    #[test]
    fn a_file_is_read_whatever_its_stripe_size() {
        const SIZE_AT: usize = parent::LAYOUT_AT + STRIPE_SIZE_AT;
        let mut random = Random::for_test("stripe sizes");
        let mut refused = 0;
        for _ in 0..1_000 {
            let tables = Tables::random(SHAPE, &mut random);
            for row in tables.rows(Table::Parents) {
                let Some(file) = File::read(row) else {
                    continue;
                };
                for size in [0, 1, STRIPE_UNIT, STRIPE_UNIT + 1, u32::MAX] {
                    let mut row = row.to_vec();
                    row[SIZE_AT..SIZE_AT + 4].copy_from_slice(&size.to_le_bytes());
                    let mut other = file.clone();
                    other.header.stripe_size = size;
                    assert_eq!(File::read(&row), Some(other));
                    let length = usize::from(number16(&row, parent::LENGTH_AT));
                    match fields(&row[parent::LAYOUT_AT..][..length]) {
                        Some(fields) => assert_eq!(fields[4], size.into()),
                        None => refused += 1,
                    }
                }
            }
        }
        assert!(refused > 1_000, "{refused}");
    }

    /// Any other fault leaves nothing to read.
    #[test]
    fn a_layout_with_another_fault_is_not_read() {
        let mut random = Random::for_test("other faults");
        for _ in 0..1_000 {
            let tables = Tables::random(SHAPE, &mut random);
            for row in tables.rows(Table::Parents).filter(|row| is_used(row)) {
                let mut row = row.to_vec();
                let at = [layout::MAGIC_AT, layout::PATTERN_AT, COUNT_AT + 1];
                row[parent::LAYOUT_AT + random.pick(&at)] ^= 0x80;
                assert_eq!(File::read(&row), None);
                row[parent::LENGTH_AT..parent::LAYOUT_AT].fill(0);
                assert_eq!(File::read(&row), None);
            }
        }
    }
}
