//! A namespace at full size.

use numbers::fid::{BYTES as FID, ID_AT};
use numbers::link::{HEADER, MAGIC, NAME_AT};
use numbers::names::{ROOT_ID, ROOT_SEQUENCE};
use numbers::{child, entry};

/// The sequence of children.
const CHILDREN: u64 = 0x2_0000_0401;
/// One file in so many is damaged.
const DAMAGED: usize = 100;
/// What a number is multiplied with, modulo 2^32, to put numbers in no order: it is odd, so that
/// they stay different.
const SPREAD: u32 = 0x9e37_79b1;

/// Both tables of a call.
#[derive(Clone, PartialEq, Eq)]
pub struct Namespace {
    /// The entry rows.
    pub entries: Vec<u8>,
    /// The child rows.
    pub children: Vec<u8>,
}

/// A FID by sequence and id.
type Numbers = (u64, u32);

impl Namespace {
    /// So many children, each with an entry. Half are directories, in chains of so many under ROOT,
    /// and have no linkEA, as after an upgrade. The others are files in them. A file in a hundred
    /// is damaged, in five ways in turn. FIDs and entries are in no order.
    pub fn of(children: usize, chain: usize) -> Namespace {
        let mut names = Namespace {
            entries: Vec::with_capacity(children * entry::BYTES),
            children: Vec::with_capacity(children * child::BYTES),
        };
        let directories = children / 2;
        for number in 0..children {
            let Some(file) = number.checked_sub(directories) else {
                names.add_directory(number, chain);
                continue;
            };
            names.add_file(number, own(number % directories));
            if file.is_multiple_of(DAMAGED) {
                names.damage(number, file / DAMAGED % 5);
            }
        }
        names.entries = spread(&names.entries);
        names
    }

    /// What a pass does to it: self FIDs taken, FID-in-dirents written, records appended, those of
    /// the directories among them, and records removed.
    pub fn done(children: usize) -> [u64; 4] {
        let directories = children / 2;
        let damaged = (children - directories).div_ceil(DAMAGED);
        let of = |way: usize| ((damaged + 4 - way) / 5) as u64;
        let appended = directories as u64 + of(3);
        [of(0), of(1) + of(2), appended, of(3) + of(4)]
    }

    /// A directory in the one before it, or in ROOT at the head of a chain.
    fn add_directory(&mut self, number: usize, chain: usize) {
        let up = match number % chain {
            0 => (ROOT_SEQUENCE, ROOT_ID),
            _ => own(number - 1),
        };
        self.add_entry(number, up);
        let at = self.children.len();
        self.children.extend(fid(own(number)));
        self.children.extend(fid(up));
        self.children.resize(at + child::BYTES, 0);
    }

    fn add_file(&mut self, number: usize, directory: Numbers) {
        self.add_entry(number, directory);
        let at = self.children.len();
        let link = link(&[record(directory, &name(number))]);
        self.children.extend(fid(own(number)));
        self.children.extend([0; FID]);
        self.children.extend((link.len() as u16).to_le_bytes());
        self.children.extend(link);
        self.children.resize(at + child::BYTES, 0);
    }

    fn add_entry(&mut self, number: usize, directory: Numbers) {
        let at = self.entries.len();
        let name = name(number);
        self.entries.extend(fid(directory));
        self.entries.extend((number as u32).to_le_bytes());
        self.entries.extend(fid(own(number)));
        self.entries.extend((name.len() as u16).to_le_bytes());
        self.entries.extend(name);
        self.entries.resize(at + entry::BYTES, 0);
    }

    fn damage(&mut self, number: usize, way: usize) {
        let row = &mut self.children[number * child::BYTES..][..child::BYTES];
        let entry = &mut self.entries[number * entry::BYTES..][..entry::BYTES];
        let fid_in_dirent = &mut entry[entry::FID_AT..entry::LENGTH_AT];
        let length = usize::from(row[child::LENGTH_AT]);
        let (head, room) = row.split_at_mut(child::LINK_AT);
        match way {
            // There is no self FID.
            0 => head[child::SELF_AT..child::UP_AT].fill(0),
            // There is no FID-in-dirent.
            1 => fid_in_dirent.fill(0),
            // It is another.
            2 => fid_in_dirent[ID_AT] ^= 0x80,
            // The record has another name.
            3 => room[length - 1] = b'x',
            // It stands there twice.
            _ => {
                let record = room[HEADER..length].to_vec();
                let link = link(&[record.clone(), record]);
                head[child::LENGTH_AT..].copy_from_slice(&(link.len() as u16).to_le_bytes());
                room[..link.len()].copy_from_slice(&link);
            }
        }
    }
}

fn own(number: usize) -> Numbers {
    (CHILDREN, spread_number(number))
}

fn spread_number(number: usize) -> u32 {
    (number as u32).wrapping_mul(SPREAD)
}

/// Entry rows in no order.
fn spread(entries: &[u8]) -> Vec<u8> {
    let mut rows: Vec<(usize, &[u8])> = entries.chunks_exact(entry::BYTES).enumerate().collect();
    rows.sort_by_key(|(number, _)| spread_number(*number));
    rows.into_iter().flat_map(|(_, row)| row).copied().collect()
}

fn name(number: usize) -> Vec<u8> {
    format!("name-{number:08}").into_bytes()
}

fn fid((sequence, id): Numbers) -> [u8; FID] {
    let mut bytes = [0; FID];
    bytes[..ID_AT].copy_from_slice(&sequence.to_le_bytes());
    bytes[ID_AT..][..4].copy_from_slice(&id.to_le_bytes());
    bytes
}

fn record((sequence, id): Numbers, name: &[u8]) -> Vec<u8> {
    let mut bytes = ((NAME_AT + name.len()) as u16).to_be_bytes().to_vec();
    bytes.extend(sequence.to_be_bytes());
    bytes.extend(id.to_be_bytes());
    bytes.extend([0; 4]);
    bytes.extend(name);
    bytes
}

/// A linkEA of these records.
fn link(records: &[Vec<u8>]) -> Vec<u8> {
    let total = HEADER + records.iter().map(Vec::len).sum::<usize>();
    let mut bytes = MAGIC.to_le_bytes().to_vec();
    bytes.extend((records.len() as u32).to_le_bytes());
    bytes.extend((total as u64).to_le_bytes());
    bytes.extend([0; 8]);
    bytes.extend(records.concat());
    bytes
}
