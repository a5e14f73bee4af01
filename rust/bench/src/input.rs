//! Tables at full size, and long linkEAs.

use numbers::fid::{BYTES as FID, ID_AT, VERSION_AT};
use numbers::layout::{HEADER_ONE, HOLES, LAST_OST, MAGIC_ONE, SLOT_OST_AT};
use numbers::{call, layout, link, object, parent, reserve};

const PARENT: usize = parent::BYTES;
const OBJECT: usize = object::BYTES;
/// Where the slots of a layout of version 1 start in a parent row.
const SLOTS_AT: usize = parent::LAYOUT_AT + HEADER_ONE;
const SLOT: usize = layout::SLOT_BYTES;

const FILES: u64 = 0x2_0000_0401;
/// The sequence of objects.
pub const OBJECTS: u64 = 0x2_4000_0400;
/// An id above those of all objects, named and not.
pub const PAST_OBJECTS: u64 = 5_000_000;
/// The first id of the reserve.
const RESERVED: usize = 1_000_000;
/// The first id of objects that slots name and that are not there.
const ABSENT: usize = 2_000_000;

/// The ways of damage, and the one that makes an object an orphan.
const WAYS: usize = 7;
const ORPHANED: usize = 5;

/// How large tables are.
#[derive(Clone, Copy, Debug, PartialEq, Eq)]
pub struct Shape {
    /// The slots of a file; the last file may have fewer.
    pub file_slots: usize,
    /// The slots of all files.
    pub slots: usize,
    /// The objects, each named by a slot.
    pub objects: usize,
    /// The FIDs of the reserve.
    pub reserve: usize,
}

impl Shape {
    /// A thousand files of 160 slots: two slots in five name an object.
    pub const THOUSAND: Shape = Shape::files(1000, 160);
    /// A thousand files of 1,000 slots: a slot in 15 names an object.
    pub const MILLION: Shape = Shape::files(1000, 1000);
    /// As many files as there may be, with as many slots as they may have.
    pub const FULL: Shape = Shape::files(parent::MOST, layout::MOST_SLOTS);

    /// So many files of so many slots, with as many objects and FIDs of the reserve as there may be.
    pub const fn files(files: usize, file_slots: usize) -> Shape {
        Shape {
            file_slots,
            slots: files * file_slots,
            objects: object::MOST,
            reserve: reserve::MOST,
        }
    }

    /// The files.
    pub fn count(self) -> usize {
        self.slots.div_ceil(self.file_slots)
    }

    /// The slot that names the object of this number, over all files.
    fn slot_of(self, object: usize) -> usize {
        object * self.slots / self.objects
    }

    /// The numbers of as many objects as one slot in a hundred, evenly spread.
    fn one_in_hundred(self) -> impl Iterator<Item = usize> {
        let count = self.slots / 100;
        (0..count).map(move |at| at * self.objects / count)
    }
}

/// The three tables of a call, with their shape.
#[derive(Clone, PartialEq, Eq)]
pub struct Tables {
    /// How large they are.
    pub shape: Shape,
    /// The parent rows.
    pub parents: Vec<u8>,
    /// The object rows.
    pub objects: Vec<u8>,
    /// The reserve.
    pub reserve: Vec<u8>,
}

impl Tables {
    /// Tables of a shape: the slots that name an object are evenly spread, and the others are holes.
    /// Every file, slot and object is as it should be, the objects in the order of their slots; no
    /// FID of the reserve is in use.
    pub fn clean(shape: Shape) -> Tables {
        let reserved = |number| fid(OBJECTS, (RESERVED + number) as u32, 0);
        let mut tables = Tables {
            shape,
            parents: Vec::with_capacity(PARENT * shape.count()),
            objects: Vec::with_capacity(OBJECT * shape.objects),
            reserve: (0..shape.reserve).flat_map(reserved).collect(),
        };
        for file in 0..shape.count() {
            let left = shape.slots - file * shape.file_slots;
            tables.add_file(file, shape.file_slots.min(left));
        }
        for number in 0..shape.objects {
            tables.add_object(number, shape.slot_of(number));
        }
        tables
    }

    /// The same tables with damage.
    pub fn damaged(shape: Shape) -> Tables {
        let mut tables = Tables::clean(shape);
        tables.damage();
        tables
    }

    /// The same tables, but as many slots as one in a hundred name the object of the next one that
    /// names any, while their own object, which is fresh, waits for them; every other one of these
    /// has another owner.
    pub fn waiting(shape: Shape) -> Tables {
        let mut tables = Tables::clean(shape);
        for (fault, number) in shape.one_in_hundred().enumerate() {
            let next = (number + 1) % shape.objects;
            let name = fid(OBJECTS, next as u32 + 1, 0);
            tables.slot_mut(shape.slot_of(number))[..FID].copy_from_slice(&name);
            let row = OBJECT * number;
            tables.objects[row + object::FRESH_AT] = 1;
            tables.objects[row + object::OWNER_AT] ^= (fault % 2) as u8;
        }
        tables
    }

    /// The positions of the steps that repair damage, as it is spread.
    pub fn repairs(&self) -> impl Iterator<Item = [u64; call::POSITION]> {
        let numbers = self.shape.one_in_hundred().enumerate();
        numbers.map(|(fault, number)| {
            let (row, index) = self.place(self.shape.slot_of(number));
            if fault % WAYS == ORPHANED {
                [call::STAGE_OBJECTS, number as u64, 0]
            } else {
                [call::STAGE_PARENTS, row as u64, index as u64 + 1]
            }
        })
    }

    fn add_file(&mut self, row: usize, slots: usize) {
        let at = self.parents.len();
        let id = row as u32 + 1;
        let bytes = &mut self.parents;
        bytes.push(1);
        bytes.extend(fid(FILES, id, 0));
        bytes.extend(owner());
        bytes.extend(((HEADER_ONE + SLOT * slots) as u16).to_le_bytes());
        bytes.extend(MAGIC_ONE.to_le_bytes());
        bytes.extend(HOLES.to_le_bytes());
        bytes.extend(u64::from(id).to_le_bytes());
        bytes.extend(FILES.to_le_bytes());
        bytes.extend(1_048_576_u32.to_le_bytes());
        bytes.extend((slots as u16).to_le_bytes());
        bytes.resize(at + PARENT, 0);
    }

    /// Adds an object to the slot of that number over all files.
    fn add_object(&mut self, number: usize, slot: usize) {
        let id = number as u32 + 1;
        let (row, index) = self.place(slot);
        let ost = number as u32 % (LAST_OST + 1);
        let bytes = self.slot_mut(slot);
        bytes[..FID].copy_from_slice(&fid(OBJECTS, id, 0));
        bytes[SLOT_OST_AT..].copy_from_slice(&ost.to_le_bytes());
        self.objects.push(1);
        self.objects.extend(fid(OBJECTS, id, 0));
        self.objects.extend(ost.to_le_bytes());
        self.objects.extend(owner());
        self.objects
            .extend(fid(FILES, row as u32 + 1, index as u32));
        self.objects.push(0);
    }

    /// The row and the index of the slot of that number over all files.
    fn place(&self, slot: usize) -> (usize, usize) {
        (slot / self.shape.file_slots, slot % self.shape.file_slots)
    }

    fn slot_mut(&mut self, slot: usize) -> &mut [u8] {
        let (row, index) = self.place(slot);
        let at = PARENT * row + SLOTS_AT + SLOT * index;
        &mut self.parents[at..at + SLOT]
    }

    /// Names an object in every hole; none of them is there.
    pub fn fill(&mut self) {
        for slot in 0..self.shape.slots {
            let name = fid(OBJECTS, (ABSENT + slot) as u32, 0);
            let bytes = self.slot_mut(slot);
            if bytes.iter().all(|&byte| byte == 0) {
                bytes[..FID].copy_from_slice(&name);
            }
        }
    }

    /// Damages as many objects as one slot in a hundred, evenly spread, in seven ways in turn.
    fn damage(&mut self) {
        let objects = self.shape.objects;
        for (fault, number) in self.shape.one_in_hundred().enumerate() {
            let slot = self.shape.slot_of(number);
            let other = (number + objects / 2) % objects;
            let row = OBJECT * number;
            match fault % WAYS {
                // The object is gone.
                0 => self.objects[row..row + OBJECT].fill(0),
                // The slot names another file's object, and its own is gone.
                1 => {
                    let name = fid(OBJECTS, other as u32 + 1, 0);
                    self.slot_mut(slot)[..FID].copy_from_slice(&name);
                    self.objects[row..row + OBJECT].fill(0);
                }
                // The object claims nothing.
                2 => self.objects[row + object::CLAIM_AT..row + object::FRESH_AT].fill(0),
                // It claims another slot.
                3 => self.objects[row + object::CLAIM_AT + VERSION_AT] ^= 0x80,
                // It has another owner.
                4 => self.objects[row + object::OWNER_AT] ^= 1,
                // The slot is a hole, and the object an orphan.
                ORPHANED => self.slot_mut(slot).fill(0),
                // It is on the other OST of two whose indices are exchanged.
                _ => self.objects[row + object::OST_AT] ^= 1,
            }
        }
    }
}

/// A linkEA as the writer takes it.
pub struct Names {
    /// The header's numbers.
    pub fields: [u64; call::LINK_HEADER],
    /// The records' numbers.
    pub records: Vec<u64>,
    /// The names, one after another.
    pub names: Vec<u8>,
}

impl Names {
    /// So many records, with names of so many bytes.
    pub fn of(count: usize, bytes: usize) -> Names {
        let total = link::HEADER + count * (link::NAME_AT + bytes);
        let record = |number: usize| {
            let (id, start) = (number as u64 + 1, (number * bytes) as u64);
            [FILES, id, 0, start, bytes as u64]
        };
        Names {
            fields: [count as u64, total as u64, 0, 0],
            records: (0..count).flat_map(record).collect(),
            names: (0..count * bytes)
                .map(|at| b'a' + (at % 26) as u8)
                .collect(),
        }
    }
}

/// The bytes of a FID.
fn fid(sequence: u64, id: u32, version: u32) -> [u8; FID] {
    let mut bytes = [0; FID];
    bytes[..ID_AT].copy_from_slice(&sequence.to_le_bytes());
    bytes[ID_AT..VERSION_AT].copy_from_slice(&id.to_le_bytes());
    bytes[VERSION_AT..].copy_from_slice(&version.to_le_bytes());
    bytes
}

/// The uid and gid of everything.
fn owner() -> [u8; 8] {
    [0xf4, 1, 0, 0, 0x58, 2, 0, 0]
}
