//! Damages to a case, each of one field.

use super::{COUNTS, Case, LENGTHS};
use difftest::Random;
use numbers::layout::MOST_SLOTS;
use reference::fid::FIRST_SEQUENCE;
use reference::layout::SLOT_BYTES;
use reference::tables::{LAYOUT_AT, OBJECT_BYTES, PARENT_BYTES, RESERVE_BYTES};

/// The enum, and the list of all its cases.
macro_rules! damages {
    ($($name:ident,)*) => {
        #[derive(Clone, Copy, Debug, PartialEq, Eq, PartialOrd, Ord)]
        pub enum Damage {
            $($name,)*
        }

        impl Damage {
            pub const ALL: &[Damage] = &[$(Damage::$name,)*];
        }
    };
}

damages! {
    // Of a used parent row.
    ParentMark,
    ParentSequence,
    ParentId,
    ParentVersion,
    ParentTwice,
    ParentUid,
    ParentGid,
    LayoutLength,
    Magic,
    Pattern,
    OwnId,
    OwnSequence,
    StripeSize,
    StripeSizeOther,
    StripeCount,
    LayoutGeneration,
    Pool,
    SlotSequence,
    SlotId,
    SlotVersion,
    SlotGeneration,
    SlotOst,
    Hole,
    RoomPastLayout,
    // Of a used object row.
    ObjectMark,
    ObjectSequence,
    ObjectId,
    ObjectVersion,
    ObjectTwice,
    ObjectOst,
    ObjectUid,
    ObjectGid,
    ClaimSequence,
    ClaimId,
    ClaimIndex,
    ClaimIndexAlone,
    FreshMark,
    FreshUnclaimed,
    // Of an unused row.
    UnusedParentMark,
    UnusedParentFields,
    UnusedObjectMark,
    UnusedObjectFields,
    // Of the reserve.
    ReserveSequence,
    ReserveId,
    ReserveVersion,
    ReserveTwice,
    // Of a whole table.
    ParentsLength,
    ObjectsLength,
    ReserveLength,
    // Beside the tables.
    Policy,
    Stage,
    Row,
    Part,
}

impl Damage {
    /// What the paper answers to the damage alone; nothing where the field may have any value.
    pub fn number(self) -> Option<u32> {
        use Damage::*;
        match self {
            ParentMark | ObjectMark | UnusedParentMark | UnusedObjectMark | FreshMark
            | ParentsLength | ObjectsLength | ReserveLength => Some(11),
            Policy => Some(12),
            LayoutLength | Magic | Pattern | StripeSize | StripeCount | SlotSequence | SlotId
            | SlotVersion | SlotOst | Hole => Some(13),
            ParentSequence | ParentId | ParentVersion | ObjectSequence | ObjectId
            | ObjectVersion | ObjectOst | ClaimSequence | ClaimId | ClaimIndexAlone
            | FreshUnclaimed | ReserveSequence | ReserveId | ReserveVersion => Some(14),
            ParentTwice | ObjectTwice => Some(15),
            Stage | Row | Part => Some(16),
            ParentUid | ParentGid | OwnId | OwnSequence | StripeSizeOther | LayoutGeneration
            | Pool | SlotGeneration | RoomPastLayout | ObjectUid | ObjectGid | ClaimIndex
            | UnusedParentFields | UnusedObjectFields | ReserveTwice => None,
        }
    }

    /// Damages a case, or says that it has nothing of the kind.
    pub fn make(self, case: &mut Case, random: &mut Random) -> bool {
        self.make_inside(case, random).is_some()
    }

    fn make_inside(self, case: &mut Case, random: &mut Random) -> Option<()> {
        use Damage::*;
        match self {
            ParentTwice => repeat_fid(&mut case.parents, PARENT_BYTES, random),
            ObjectTwice => repeat_fid(&mut case.objects, OBJECT_BYTES, random),
            UnusedParentMark | UnusedParentFields => {
                self.make_in_unused(a_row(&mut case.parents, PARENT_BYTES, 0, random)?, random)
            }
            UnusedObjectMark | UnusedObjectFields => {
                self.make_in_unused(a_row(&mut case.objects, OBJECT_BYTES, 0, random)?, random)
            }
            ReserveSequence | ReserveId | ReserveVersion | ReserveTwice => {
                self.make_in_reserve(&mut case.reserve, random)
            }
            ParentsLength => change_length(&mut case.parents, PARENT_BYTES, random),
            ObjectsLength => change_length(&mut case.objects, OBJECT_BYTES, random),
            ReserveLength => change_length(&mut case.reserve, RESERVE_BYTES, random),
            Policy => {
                case.policy =
                    random.pick(&[4, 5, 7, 255, 256, 1 << 32, 1 << 32 | 1, 1 << 63, u64::MAX]);
                Some(())
            }
            Stage | Row | Part => self.make_in_position(case, random),
            _ if self < ObjectMark => {
                self.make_in_parent(a_row(&mut case.parents, PARENT_BYTES, 1, random)?, random)
            }
            _ => self.make_in_object(a_row(&mut case.objects, OBJECT_BYTES, 1, random)?, random),
        }
    }

    fn make_in_parent(self, row: &mut [u8], random: &mut Random) -> Option<()> {
        use Damage::*;
        match self {
            ParentMark => row[0] = bad_mark(random),
            ParentSequence => put(row, 1, &bad_sequence(random)),
            ParentId => put(row, 9, &[0; 4]),
            ParentVersion => put(row, 13, &one_bit(random)),
            ParentUid => random.fill(&mut row[17..21]),
            ParentGid => random.fill(&mut row[21..25]),
            LayoutLength => {
                let length = u16::from_le_bytes([row[25], row[26]]);
                let near = [length.wrapping_sub(1), length.wrapping_add(1), length ^ 256];
                let bounds = LENGTHS.map(|bound| bound as u16);
                let other = match random.below(3) {
                    0 => random.pick(&[0, 1, u16::MAX]),
                    1 => random.pick(&near),
                    _ => random.pick(&bounds),
                };
                put(row, 25, &other.to_le_bytes());
                (other != length).then_some(())?;
            }
            _ => {
                let length = u16::from_le_bytes([row[25], row[26]]).into();
                return self.make_in_layout(&mut row[LAYOUT_AT..], length, random);
            }
        }
        Some(())
    }

    fn make_in_layout(self, room: &mut [u8], length: usize, random: &mut Random) -> Option<()> {
        use Damage::*;
        // The magic tells the version, if another damage left it.
        let header = if room[2] == 0xd3 { 48 } else { 32 };
        match self {
            Magic | Pattern | OwnId | OwnSequence | StripeSize | StripeSizeOther | StripeCount
            | LayoutGeneration => self.make_in_header(room, random),
            Pool if header == 48 => random.fill(&mut room[32..48]),
            Pool => return None,
            RoomPastLayout => {
                let at = length + random.below(room.len().checked_sub(length)?);
                *room.get_mut(at)? ^= 1 << random.below(8);
            }
            _ => return self.make_in_slots(room.get_mut(header..length)?, random),
        }
        Some(())
    }

    /// A damage to what both versions have before their slots.
    fn make_in_header(self, header: &mut [u8], random: &mut Random) {
        use Damage::*;
        match self {
            Magic => {
                let other = random.pick(&[0, 0x0BD1_0BD1_u32, 0x0BD2_0BD0, 0x0BD4_0BD0]);
                put(header, 0, &other.to_le_bytes());
            }
            Pattern => {
                let other = random.pick(&[0, 2, 3, 0x4000_0000, 0x8000_0001_u32]);
                put(header, 4, &other.to_le_bytes());
            }
            OwnId => random.fill(&mut header[8..16]),
            OwnSequence => random.fill(&mut header[16..24]),
            StripeSize => put(header, 24, &random.bad_stripe_size().to_le_bytes()),
            StripeSizeOther => put(header, 24, &random.stripe_size().to_le_bytes()),
            StripeCount => {
                let count = u16::from_le_bytes([header[28], header[29]]);
                put(header, 28, &other_count(count, random).to_le_bytes());
            }
            LayoutGeneration => random.fill(&mut header[30..32]),
            _ => unreachable!("{self:?} is no damage to a header"),
        }
    }

    /// A damage to a hole, or to a slot that names an object.
    fn make_in_slots(self, slots: &mut [u8], random: &mut Random) -> Option<()> {
        let holes = self == Damage::Hole;
        let is_wanted = |slot: &[u8]| holes == slot.iter().all(|&byte| byte == 0);
        let wanted = slots
            .chunks_exact(SLOT_BYTES)
            .filter(|slot| is_wanted(slot))
            .count();
        let chosen = random.below(wanted.checked_sub(1)? + 1);
        let mut slots = slots
            .chunks_exact_mut(SLOT_BYTES)
            .filter(|slot| is_wanted(slot));
        self.make_in_slot(slots.nth(chosen)?, random);
        Some(())
    }

    fn make_in_slot(self, slot: &mut [u8], random: &mut Random) {
        match self {
            Damage::SlotSequence => put(slot, 0, &bad_sequence(random)),
            Damage::SlotId => put(slot, 8, &[0; 4]),
            Damage::SlotVersion => put(slot, 12, &one_bit(random)),
            Damage::SlotGeneration => random.fill(&mut slot[16..20]),
            Damage::SlotOst => put(slot, 20, &bad_ost(random)),
            Damage::Hole => slot[random.below(SLOT_BYTES)] = 1 << random.below(8),
            _ => unreachable!("{self:?} is no damage to a slot"),
        }
    }

    fn make_in_object(self, row: &mut [u8], random: &mut Random) -> Option<()> {
        use Damage::*;
        let claimed = row[29..45].iter().any(|&byte| byte != 0);
        match self {
            ObjectMark => row[0] = bad_mark(random),
            ObjectSequence => put(row, 1, &bad_sequence(random)),
            ObjectId => put(row, 9, &[0; 4]),
            ObjectVersion => put(row, 13, &one_bit(random)),
            ObjectOst => put(row, 17, &bad_ost(random)),
            ObjectUid => random.fill(&mut row[21..25]),
            ObjectGid => random.fill(&mut row[25..29]),
            ClaimSequence if claimed => put(row, 29, &bad_sequence(random)),
            ClaimId if claimed => put(row, 37, &[0; 4]),
            ClaimIndex if claimed => random.fill(&mut row[41..45]),
            ClaimIndexAlone => {
                row[29..41].fill(0);
                put(row, 41, &one_bit(random));
            }
            FreshMark => row[45] = bad_mark(random),
            FreshUnclaimed => {
                row[29..45].fill(0);
                row[45] = 1;
            }
            _ => return None,
        }
        Some(())
    }

    fn make_in_unused(self, row: &mut [u8], random: &mut Random) -> Option<()> {
        match self {
            Damage::UnusedParentMark | Damage::UnusedObjectMark => row[0] = bad_mark(random),
            _ => row[1..].fill(random.pick(&[0, 0xff])),
        }
        Some(())
    }

    fn make_in_reserve(self, reserve: &mut Vec<u8>, random: &mut Random) -> Option<()> {
        let entries = reserve.len() / RESERVE_BYTES;
        let at = RESERVE_BYTES * random.below(entries.checked_sub(1)? + 1);
        match self {
            Damage::ReserveSequence => put(reserve, at, &bad_sequence(random)),
            Damage::ReserveId => put(reserve, at + 8, &[0; 4]),
            Damage::ReserveVersion => put(reserve, at + 12, &one_bit(random)),
            _ => reserve.extend_from_within(at..at + RESERVE_BYTES),
        }
        Some(())
    }

    /// A stage, row or part that is not there, the others good.
    fn make_in_position(self, case: &mut Case, random: &mut Random) -> Option<()> {
        let parents = (case.parents.len() / PARENT_BYTES) as u64;
        let objects = (case.objects.len() / OBJECT_BYTES) as u64;
        let far = [u64::MAX, 1 << 32, 1 << 63, u64::MAX - 1];
        let [stage, row, part] = &mut case.position;
        match self {
            Damage::Stage => {
                *stage = random.pick(&[0, 4, 5, *stage | 1 << 32, *stage | 1 << 8, u64::MAX])
            }
            Damage::Row => {
                let rows = [1, parents, objects, 1][(*stage % 4) as usize];
                *row = match random.below(3) {
                    0 => rows,
                    1 => rows + 1 + random.below(9) as u64,
                    _ => random.pick(&far) | *row,
                };
            }
            _ => {
                *part = match (*stage, random.below(3)) {
                    (1, 0) => parts_of(&case.parents, *row)?,
                    (1, 1) => (MOST_SLOTS + 1 + random.below(3)) as u64,
                    (2 | 3, 0) => 1,
                    (2 | 3, 1) => 1 + random.below(MOST_SLOTS + 1) as u64,
                    _ => random.pick(&far) | *part,
                };
            }
        }
        Some(())
    }
}

/// A stripe count near this one, or at a bound.
fn other_count(count: u16, random: &mut Random) -> u16 {
    let near = [count.wrapping_sub(1), count.wrapping_add(1), count ^ 256];
    let bounds = COUNTS.map(|bound| bound as u16);
    match random.below(2) {
        0 => random.pick(&near),
        _ => random.pick(&bounds),
    }
}

/// The first part that a parent row does not have.
fn parts_of(parents: &[u8], row: u64) -> Option<u64> {
    let row = parents.chunks_exact(PARENT_BYTES).nth(row as usize)?;
    let count = u16::from_le_bytes([row[LAYOUT_AT + 28], row[LAYOUT_AT + 29]]);
    Some(if row[0] == 0 { 1 } else { u64::from(count) + 1 })
}

/// A row of a table that has this mark.
fn a_row<'a>(
    table: &'a mut [u8],
    size: usize,
    mark: u8,
    random: &mut Random,
) -> Option<&'a mut [u8]> {
    let marked = table
        .chunks_exact(size)
        .filter(|row| row[0] == mark)
        .count();
    let chosen = random.below(marked.checked_sub(1)? + 1);
    table
        .chunks_exact_mut(size)
        .filter(|row| row[0] == mark)
        .nth(chosen)
}

/// Gives a used row the FID of another.
fn repeat_fid(table: &mut [u8], size: usize, random: &mut Random) -> Option<()> {
    let mut rows: Vec<&mut [u8]> = table
        .chunks_exact_mut(size)
        .filter(|row| row[0] == 1)
        .collect();
    random.shuffle(&mut rows);
    let (first, others) = rows.split_first_mut()?;
    others.first()?;
    let other = random.below(others.len());
    first[1..17].copy_from_slice(&others[other][1..17]);
    Some(())
}

/// Some bytes more or fewer, and never a whole row's.
fn change_length(table: &mut Vec<u8>, size: usize, random: &mut Random) -> Option<()> {
    let bytes = 1 + random.below(size - 1);
    if random.one_in(2) || table.is_empty() {
        let more = random.bytes(bytes);
        table.extend(more);
    } else {
        table.truncate(table.len() - bytes.min(table.len() - 1));
    }
    Some(())
}

fn bad_mark(random: &mut Random) -> u8 {
    random.pick(&[2, 3, 128, 255])
}

fn bad_sequence(random: &mut Random) -> [u8; 8] {
    random
        .pick(&[0, 1, FIRST_SEQUENCE - 1, u64::MAX])
        .to_le_bytes()
}

fn bad_ost(random: &mut Random) -> [u8; 4] {
    random
        .pick(&[65_536, 65_537, 1 << 31, u32::MAX])
        .to_le_bytes()
}

fn one_bit(random: &mut Random) -> [u8; 4] {
    (1_u32 << random.below(32)).to_le_bytes()
}

/// Writes a field at its place.
pub fn put(bytes: &mut [u8], at: usize, field: &[u8]) {
    bytes[at..at + field.len()].copy_from_slice(field);
}
