//! Random attribute dumps, with an owners file and tables for them: good ones, and ones with one
//! or two flaws.

mod entry;
mod flaw;
mod owners;
mod value;

use crate::Random;
use crate::tables::{Shape, TINY, random_tables, to_bytes};
use entry::Entry;
pub use flaw::Flaw;
use numbers::{object, parent};

/// Something that a dump may have and that is good.
#[derive(Clone, Copy, Debug, PartialEq, Eq, PartialOrd, Ord)]
pub enum Trait {
    /// No entry at all.
    Empty,
    /// Two entries or more.
    Several,
    /// A layout of no bytes.
    EmptyLov,
    /// A layout as long as the room.
    FullLov,
    /// A `trusted.fid` of 16 bytes.
    ShortFid,
    /// A `trusted.fid` of 32 bytes.
    LongFid,
    /// Digits of both cases.
    BothCases,
    /// A name with bytes that no name should have.
    OddName,
    /// An attribute that is skipped.
    Skipped,
    /// An entry without attributes that are skipped.
    OnlyTaken,
    /// Zeros before an owner's number.
    LeadingZeros,
    /// An owners file whose last line has no newline.
    OwnersUnended,
    /// More owners than entries.
    SurplusOwners,
    /// A used row before the first unused one.
    UsedBefore,
}

impl Trait {
    /// All of them.
    pub const ALL: [Trait; 14] = [
        Trait::Empty,
        Trait::Several,
        Trait::EmptyLov,
        Trait::FullLov,
        Trait::ShortFid,
        Trait::LongFid,
        Trait::BothCases,
        Trait::OddName,
        Trait::Skipped,
        Trait::OnlyTaken,
        Trait::LeadingZeros,
        Trait::OwnersUnended,
        Trait::SurplusOwners,
        Trait::UsedBefore,
    ];
}

/// A dump with what is lent beside it.
#[derive(Clone, Debug)]
pub struct Dump {
    /// The dump.
    pub text: Vec<u8>,
    /// The owners file.
    pub owners: Vec<u8>,
    /// The parent table, with unused rows.
    pub parents: Vec<u8>,
    /// The object table, with unused rows.
    pub objects: Vec<u8>,
    /// What is wrong with it; two flaws are in the same entry.
    pub flaws: Vec<Flaw>,
    /// What is good about it.
    pub traits: Vec<Trait>,
}

/// A dump while it is put together.
#[derive(Default)]
pub(crate) struct Draft {
    entries: Vec<Entry>,
    owners: Vec<Vec<u8>>,
    /// What stands behind the last newline.
    tail: Vec<u8>,
    /// The entry that finds no row, if one is to.
    rowless: Option<usize>,
    traits: Vec<Trait>,
}

impl Dump {
    /// A dump without flaws.
    pub fn good(random: &mut Random) -> Dump {
        Dump::with(&[], random)
    }

    /// A dump with these flaws, all in one entry.
    pub fn with(flaws: &[Flaw], random: &mut Random) -> Dump {
        let least = usize::from(!flaws.is_empty() || !random.one_in(20));
        let count = least + random.pick(&[0, 0, 1, 1, 2, 3]) * least;
        let mut draft = Draft::of(count, random);
        let at = random.below(draft.entries.len().max(1));
        for flaw in flaws {
            flaw.put(&mut draft, at, random);
        }
        draft.finish(flaws, random)
    }

    /// A dump of so many entries, now and then with a flaw in one of them.
    pub fn long(entries: usize, random: &mut Random) -> Dump {
        let mut draft = Draft::of(entries, random);
        let flaw = Flaw::any(random);
        let flaws = if random.one_in(2) { &[flaw][..] } else { &[] };
        for flaw in flaws {
            let at = entries - 1 - random.below(entries / 4);
            flaw.put(&mut draft, at, random);
        }
        draft.finish(flaws, random)
    }
}

impl Draft {
    /// So many good entries.
    fn of(count: usize, random: &mut Random) -> Draft {
        let mut draft = Draft::default();
        for _ in 0..count {
            let entry = Entry::random(&mut draft.traits, random);
            draft.entries.push(entry);
            let owner = owners::good(&mut draft.traits, random);
            draft.owners.push(owner);
        }
        match count {
            0 => draft.traits.push(Trait::Empty),
            1 => (),
            _ => draft.traits.push(Trait::Several),
        }
        draft
    }

    fn finish(mut self, flaws: &[Flaw], random: &mut Random) -> Dump {
        let owners = self.join_owners(random);
        let (parents, objects) = self.tables(random);
        let lines = self.entries.iter().flat_map(Entry::all_lines);
        let mut text: Vec<u8> = lines.flat_map(|line| [line, b"\n"].concat()).collect();
        text.extend(&self.tail);
        Dump {
            text,
            owners,
            parents,
            objects,
            flaws: flaws.to_vec(),
            traits: self.traits,
        }
    }

    fn join_owners(&mut self, random: &mut Random) -> Vec<u8> {
        let whole = self.owners.len() >= self.entries.len();
        if whole && random.one_in(6) {
            self.traits.push(Trait::SurplusOwners);
            self.owners.push(owners::any(random));
        }
        let mut bytes = self.owners.join(&b'\n');
        let ended = self.owners.is_empty() || !random.one_in(4);
        match ended {
            true if self.owners.is_empty() => (),
            true => bytes.push(b'\n'),
            false => self.traits.push(Trait::OwnersUnended),
        }
        bytes
    }

    /// Tables with as many unused rows as the entries need, or a few more.
    fn tables(&mut self, random: &mut Random) -> (Vec<u8>, Vec<u8>) {
        let (mut parents, mut objects) = to_bytes(&random_tables(BEFORE, random), random);
        if random.one_in(2) {
            mark_used(&mut parents, parent::BYTES);
            mark_used(&mut objects, object::BYTES);
        }
        let before = self.rowless.unwrap_or(self.entries.len());
        let files = self.entries[..before]
            .iter()
            .filter(|it| it.is_file())
            .count();
        let (spare_files, spare_objects) = match self.rowless {
            Some(_) => (0, 0),
            None => (random.below(2), random.below(2)),
        };
        let strict = self.rowless.is_some();
        fit(
            &mut parents,
            parent::BYTES,
            files + spare_files,
            strict,
            random,
        );
        let others = before - files + spare_objects;
        fit(&mut objects, object::BYTES, others, strict, random);
        if parents.first() == Some(&1) || objects.first() == Some(&1) {
            self.traits.push(Trait::UsedBefore);
        }
        (parents, objects)
    }
}

/// The tables before an intake, with few files: they are copied and compared with each call.
const BEFORE: Shape = Shape { parents: 2, ..TINY };

/// Makes every row used; what stands in it is left to the check.
fn mark_used(table: &mut [u8], size: usize) {
    for row in table.chunks_mut(size) {
        if row[0] == 0 {
            row[0] = 1;
            row[size - 1] = 0;
        }
    }
}

/// Adds unused rows of any bytes until there are enough; where it is strict, takes from those that
/// are too many.
fn fit(table: &mut Vec<u8>, size: usize, wanted: usize, strict: bool, random: &mut Random) {
    let unused = table.chunks(size).filter(|row| row[0] == 0).count();
    // The rows that stand, by their numbers, and the new ones among them.
    let mut order: Vec<Option<usize>> = (0..table.len() / size).map(Some).collect();
    for _ in unused..wanted {
        order.insert(random.below(order.len() + 1), None);
    }
    if unused < wanted {
        let mut whole = vec![0; order.len() * size];
        for (place, row) in whole.chunks_mut(size).zip(order) {
            match row {
                Some(row) => place.copy_from_slice(&table[row * size..][..size]),
                None => random.fill(&mut place[1..]),
            }
        }
        *table = whole;
    }
    if strict {
        let mut rows = table.chunks_mut(size).filter(|row| row[0] == 0);
        let _ = rows.by_ref().take(wanted).count();
        for row in rows {
            row[0] = 1;
            row[size - 1] = 0;
        }
    }
}
