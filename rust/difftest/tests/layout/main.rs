//! The layout functions of the library and of the reference on random layouts: sound, cut,
//! stretched and damaged, of both versions and patterns and of 0 to 2,001 slots.

mod rewrite;
mod seen;

use std::hint::black_box;
use std::time::Instant;

use difftest::Random;
use difftest::stripes::kind_of;
use difftest::tables::random_generation;
use numbers::layout::{
    COUNT_AT, HOLES, MAGIC_AT, MAGIC_ONE, MAGIC_THREE, MOST_SLOTS, PATTERN_AT, PLAIN,
};
use reference::fid::{FIRST_SEQUENCE, Fid, LAST_SEQUENCE};
use reference::interface;
use reference::layout::{Layout, SLOT_BYTES, Stripe, Version};
use rewrite::compare_rewrite;
use seen::{LENGTHS, Seen};

const LAYOUTS: usize = 500_000;

#[test]
fn layouts_are_read_and_written_alike() {
    let started = Instant::now();
    let mut random = Random::for_test("layout");
    let mut seen = Seen::nothing();
    // Every number of slots once, then mostly few of them.
    let counts = (0..=MOST_SLOTS + 1).map(Some);
    let any = std::iter::repeat(None);
    for count in counts.chain(any).take(LAYOUTS) {
        let count = count.unwrap_or_else(|| random_count(&mut random));
        let layout = random_layout(count, &mut random);
        seen.slot_counts.met(count);
        seen.sizes.met((kind_of(layout.stripe_size), count == 0));
        let mut bytes = layout.encode();
        let change = if random.one_in(2) {
            Change::None
        } else {
            random.pick(&Change::ALL)
        };
        change.make(&mut bytes, layout.version.header_bytes(), &mut random);
        seen.changes.met(change);
        compare_read(&bytes, &mut random, &mut seen);
        compare_slot(&bytes, &mut random, &mut seen);
        compare_rewrite(&bytes, &layout, &mut random, &mut seen);
        compare_write(&layout, &mut random, &mut seen);
    }
    println!(
        "{} layouts in {:.1} s",
        seen.changes.total(),
        started.elapsed().as_secs_f64()
    );
    assert!(seen.changes.total() >= 500_000);
    seen.require();
}

// Comparisons. Each lends the same to both sides and compares the answer and whatever was lent.

fn compare_read(bytes: &[u8], random: &mut Random, seen: &mut Seen) {
    let lent = room_for(8, random);
    let (mut ours, mut theirs) = (lent.clone(), lent);
    let input = bytes.to_vec();
    let answer = lfsck_sys::layout_read(black_box(&input), &mut theirs);
    let expected = interface::layout_read(bytes, &mut ours);
    assert_eq!((answer, &theirs), (expected, &ours), "read {bytes:02x?}");
    assert_eq!(black_box(&input), bytes, "read changed the layout");
    seen.read.met(answer);
    let rule = Layout::parse(bytes).err();
    if let Some(rule) = rule {
        seen.read_rules.met(rule);
    }
    let length = (bytes.len(), if rule.is_none() { "read" } else { "refused" });
    if LENGTHS.contains(&length) {
        seen.lengths.met(length);
    }
}

fn compare_slot(bytes: &[u8], random: &mut Random, seen: &mut Seen) {
    let index = random_index(bytes, random);
    let lent = room_for(5, random);
    let (mut ours, mut theirs) = (lent.clone(), lent);
    let input = bytes.to_vec();
    let answer = lfsck_sys::layout_slot(black_box(&input), index, &mut theirs);
    let expected = interface::layout_slot(bytes, index, &mut ours);
    assert_eq!(
        (answer, &theirs),
        (expected, &ours),
        "slot {index} of {bytes:02x?}"
    );
    assert_eq!(black_box(&input), bytes, "slot changed the layout");
    seen.slot.met(answer);
    if answer == 0 {
        seen.slot_kinds.met(if theirs[0] == 0 {
            "hole read"
        } else {
            "named read"
        });
    }
}

fn compare_write(layout: &Layout, random: &mut Random, seen: &mut Seen) {
    let mut numbers = LayoutNumbers::of(layout);
    if random.one_in(2) {
        numbers.damage(random);
    }
    let needed = layout.encode().len();
    let lent = Room::random(needed, random);
    let (mut ours, mut theirs) = (lent.clone(), lent.clone());
    let input = numbers.clone();
    let answer = black_box(&input).write(lfsck_sys::layout_write, &mut theirs);
    let expected = numbers.write(interface::layout_write, &mut ours);
    assert_eq!((answer, &theirs), (expected, &ours), "write {numbers:x?}");
    assert_eq!(black_box(&input), &numbers, "write changed its input");
    seen.write.met(answer);
    let is_short = lent.destination.len() < needed;
    note_write(&numbers, is_short, lent.out.is_empty(), answer, seen);
}

/// Which rule refused a write, and what room was missing.
fn note_write(numbers: &LayoutNumbers, short: bool, placeless: bool, answer: u32, seen: &mut Seen) {
    let layout = interface::layout_of_numbers(&numbers.fields, &numbers.pool, &numbers.slots);
    if let Err(rule) = layout {
        seen.write_rules.met(rule);
    }
    match (answer, short, placeless) {
        (13, true, _) => seen.write_order.met("13 with a short destination"),
        (13, _, true) => seen.write_order.met("13 with no place for the length"),
        (17, true, false) => seen.write_order.met("short destination"),
        (17, false, true) => seen.write_order.met("no place for the length"),
        _ => (),
    }
}

// Random layouts, as a program that breaks no rule but the greatest count and that of the stripe
// size would write them.

/// How many slots: mostly few, now and then as many as there may be, or one more.
fn random_count(random: &mut Random) -> usize {
    match random.below(256) {
        0..4 => MOST_SLOTS,
        4 => MOST_SLOTS + 1,
        5 | 6 => random.below(MOST_SLOTS + 2),
        _ => {
            let most = random.pick(&[2, 9, 9, 41, 162]);
            random.below(most)
        }
    }
}

fn random_layout(count: usize, random: &mut Random) -> Layout {
    let holes_allowed = random.one_in(2);
    let version = if random.one_in(2) {
        Version::One
    } else {
        Version::Three(random.bytes(16).try_into().expect("16 bytes"))
    };
    Layout {
        version,
        holes_allowed,
        own_id: random.any(),
        own_sequence: random.any(),
        stripe_size: random_stripe_size(random),
        generation: random_generation(random),
        slots: (0..count)
            .map(|_| random_slot(holes_allowed, random))
            .collect(),
    }
}

/// Mostly a good one, now and then one that is none, or any number.
fn random_stripe_size(random: &mut Random) -> u32 {
    match random.below(32) {
        0 => random.bad_stripe_size(),
        1 => random.any() as u32,
        _ => random.stripe_size(),
    }
}

fn random_slot(holes_allowed: bool, random: &mut Random) -> Option<Stripe> {
    if holes_allowed && random.one_in(3) {
        return None;
    }
    Some(Stripe {
        object: Fid::new(random_sequence(random), random_id(random)),
        generation: random.any() as u32,
        ost: match random.below(4) {
            0 => 65_535,
            1 => 0,
            _ => random.below(65_536) as u32,
        },
    })
}

fn random_sequence(random: &mut Random) -> u64 {
    match random.below(4) {
        0 => FIRST_SEQUENCE,
        1 => LAST_SEQUENCE,
        _ => random.any().clamp(FIRST_SEQUENCE, LAST_SEQUENCE),
    }
}

fn random_id(random: &mut Random) -> u32 {
    match random.below(4) {
        0 => 1,
        1 => u32::MAX,
        _ => (random.any() as u32).max(1),
    }
}

/// An index within the layout, of its last slot, at its count, past it or far outside.
fn random_index(bytes: &[u8], random: &mut Random) -> u64 {
    let about = bytes.len().saturating_sub(32) / SLOT_BYTES;
    match random.below(8) {
        0 => about as u64,
        1 => u64::MAX - random.below(3) as u64,
        2 => random.any(),
        3 => random.below(MOST_SLOTS + 10) as u64,
        4 | 5 => about.saturating_sub(1) as u64,
        _ => random.below(about.max(1)) as u64,
    }
}

/// Fewer places than needed, as many, or more; none of them empty.
fn room_for(needed: usize, random: &mut Random) -> Vec<u64> {
    let count = around(needed, random);
    random.numbers(count)
}

fn around(needed: usize, random: &mut Random) -> usize {
    match random.below(8) {
        0 => random.below(needed),
        1 => needed - 1,
        2 => needed + 1,
        3 => needed + random.below(64),
        _ => needed,
    }
}

// Changes to the bytes of a layout.

/// Right and wrong magics.
const MAGICS: [u32; 4] = [MAGIC_ONE + 1, MAGIC_THREE, MAGIC_ONE, 0];

/// Right and wrong patterns.
const PATTERNS: [u32; 6] = [0, PLAIN, 2, 0x4000_0000, HOLES, 0x8000_0001];

#[derive(Clone, Copy, Debug, PartialEq, Eq, PartialOrd, Ord)]
enum Change {
    None,
    Cut,
    CutShort,
    Stretched,
    StretchedBySlot,
    HeaderByte,
    SlotByte,
    Magic,
    Pattern,
    Count,
    SlotZeroed,
    SequenceBelow,
    SequenceAbove,
    Id,
    Version,
    Ost,
}

impl Change {
    const ALL: [Change; 16] = [
        Change::None,
        Change::Cut,
        Change::CutShort,
        Change::Stretched,
        Change::StretchedBySlot,
        Change::HeaderByte,
        Change::SlotByte,
        Change::Magic,
        Change::Pattern,
        Change::Count,
        Change::SlotZeroed,
        Change::SequenceBelow,
        Change::SequenceAbove,
        Change::Id,
        Change::Version,
        Change::Ost,
    ];

    fn make(self, bytes: &mut Vec<u8>, header: usize, random: &mut Random) {
        match self {
            Change::None => (),
            Change::Cut => bytes.truncate(random.below(bytes.len())),
            Change::CutShort => bytes.truncate(bytes.len() - one_or_more(24, random)),
            Change::Stretched => {
                let more = one_or_more(30, random);
                bytes.extend(random.bytes(more));
            }
            Change::StretchedBySlot => {
                let last = bytes[bytes.len() - SLOT_BYTES..].to_vec();
                bytes.extend(last);
            }
            Change::HeaderByte => bytes[random.below(header)] ^= 1 << random.below(8),
            Change::Magic => put(bytes, MAGIC_AT, &random.pick(&MAGICS).to_le_bytes()),
            Change::Pattern => put(bytes, PATTERN_AT, &random.pick(&PATTERNS).to_le_bytes()),
            Change::Count => recount(bytes, random),
            _ => self.make_in_slot(&mut bytes[header..], random),
        }
    }

    /// A change to one slot, if there is any.
    fn make_in_slot(self, slots: &mut [u8], random: &mut Random) {
        let count = slots.len() / SLOT_BYTES;
        if count == 0 {
            return;
        }
        let at = SLOT_BYTES * random.below(count);
        let slot = &mut slots[at..at + SLOT_BYTES];
        match self {
            Change::SlotByte => slot[random.below(SLOT_BYTES)] ^= 1 << random.below(8),
            Change::SlotZeroed => slot.fill(0),
            Change::SequenceBelow => put(
                slot,
                0,
                &random.pick(&[0, FIRST_SEQUENCE - 1]).to_le_bytes(),
            ),
            Change::SequenceAbove => put(slot, 0, &u64::MAX.to_le_bytes()),
            Change::Id => put(slot, 8, &[0; 4]),
            Change::Version => put(slot, 12, &(1 + random.below(4) as u32).to_le_bytes()),
            Change::Ost => put(
                slot,
                20,
                &random.pick(&[65_536, 65_537, u32::MAX]).to_le_bytes(),
            ),
            _ => unreachable!("{self:?} is no change to a slot"),
        }
    }
}

/// Often 1, else at most so many.
fn one_or_more(most: usize, random: &mut Random) -> usize {
    if random.one_in(3) {
        1
    } else {
        1 + random.below(most)
    }
}

/// Another count, near the one that stands or at a bound.
fn recount(bytes: &mut [u8], random: &mut Random) {
    const MOST: u16 = MOST_SLOTS as u16;
    let count = u16::from_le_bytes([bytes[COUNT_AT], bytes[COUNT_AT + 1]]);
    let [fewer, more] = [count.wrapping_sub(1), count + 1];
    let other = random.pick(&[fewer, more, count ^ 256, MOST, MOST + 1, u16::MAX]);
    put(bytes, COUNT_AT, &other.to_le_bytes());
}

fn put(bytes: &mut [u8], at: usize, field: &[u8]) {
    bytes[at..at + field.len()].copy_from_slice(field);
}

// Layouts as the numbers that the writer takes, and what it is lent to write.

type Write = fn(&[u64], &[u8], &[u64], &mut [u8], &mut [u64]) -> u32;

#[derive(Clone, Debug, PartialEq)]
struct Room {
    destination: Vec<u8>,
    /// The place for the length.
    out: Vec<u64>,
}

impl Room {
    /// Too little, as much as is needed, or more.
    fn random(needed: usize, random: &mut Random) -> Room {
        let bytes = around(needed, random);
        let places = random.pick(&[0, 1, 1, 1, 2, 3]);
        Room {
            destination: random.bytes(bytes),
            out: random.numbers(places),
        }
    }
}

#[derive(Clone, Debug, PartialEq)]
struct LayoutNumbers {
    fields: Vec<u64>,
    pool: Vec<u8>,
    slots: Vec<u64>,
}

impl LayoutNumbers {
    fn of(layout: &Layout) -> LayoutNumbers {
        let (version, pool) = match layout.version {
            Version::One => (1, Vec::new()),
            Version::Three(pool) => (3, pool.to_vec()),
        };
        LayoutNumbers {
            fields: vec![
                version,
                layout.pattern().into(),
                layout.own_id,
                layout.own_sequence,
                layout.stripe_size.into(),
                layout.slots.len() as u64,
                layout.generation.into(),
            ],
            pool,
            slots: layout
                .slots
                .iter()
                .flat_map(|&slot| interface::numbers_of_slot(slot))
                .collect(),
        }
    }

    /// Lends them to a writer, with a room.
    fn write(&self, write: Write, room: &mut Room) -> u32 {
        write(
            &self.fields,
            &self.pool,
            &self.slots,
            &mut room.destination,
            &mut room.out,
        )
    }

    /// One number changed, or one amount.
    fn damage(&mut self, random: &mut Random) {
        const MOST: u64 = MOST_SLOTS as u64;
        match random.below(12) {
            0 => self.fields[0] = random.pick(&[0, 1, 2, 3, 4, 1 << 32 | 1, u64::MAX]),
            1 => self.fields[1] = random.pick(&[0, 1, 2, 0x4000_0000, 0x4000_0001, 1 << 32 | 1]),
            2 => self.fields[4] = random_wide_size(random),
            3 => self.fields[5] = random.pick(&[0, 1, MOST, MOST + 1, 1 << 16, u64::MAX]),
            4 => self.fields[5] = self.fields[5].wrapping_add(random.pick(&[1, u64::MAX, 1 << 16])),
            5 => self.fields[6] = random.pick(&[65_535, 65_536, u64::MAX]),
            6 => resize(&mut self.fields, random),
            7 => resize(&mut self.slots, random),
            8 => {
                let count = random.pick(&[0, 1, 15, 16, 17, 32]);
                self.pool = random.bytes(count);
            }
            _ => self.damage_slot(random),
        }
    }

    fn damage_slot(&mut self, random: &mut Random) {
        let count = self.slots.len() / 5;
        if count > 0 {
            let at = 5 * random.below(count);
            damage_slot_numbers(&mut self.slots[at..at + 5], random);
        }
    }
}

/// A stripe size that is none: it does not fit its field, or is against the rule there.
fn random_wide_size(random: &mut Random) -> u64 {
    let wide = [1 << 32, 1 << 32 | u64::from(random.stripe_size()), u64::MAX];
    match random.below(2) {
        0 => random.pick(&wide),
        _ => random.bad_stripe_size().into(),
    }
}

/// A few numbers more or fewer.
fn resize(numbers: &mut Vec<u64>, random: &mut Random) {
    let fewer = numbers.len().saturating_sub(1 + random.below(5));
    if random.one_in(2) {
        numbers.truncate(fewer);
    } else {
        let more = 1 + random.below(5);
        numbers.extend(random.numbers(more));
    }
}

fn random_slot_numbers(holes_allowed: bool, random: &mut Random) -> Vec<u64> {
    let holes = holes_allowed || random.one_in(8);
    let mut numbers = interface::numbers_of_slot(random_slot(holes, random)).to_vec();
    match random.below(8) {
        0 => resize(&mut numbers, random),
        1 | 2 => damage_slot_numbers(&mut numbers, random),
        _ => (),
    }
    numbers
}

/// One number of a slot, at and past its bounds.
fn damage_slot_numbers(slot: &mut [u64], random: &mut Random) {
    let wide = [1 << 32, u64::MAX, 1 << 63];
    match random.below(6) {
        0 => slot[0] = random.pick(&[0, 1, 2, 1 << 32, u64::MAX]),
        1 => slot[1] = random.pick(&[0, FIRST_SEQUENCE - 1, LAST_SEQUENCE, u64::MAX]),
        2 => slot[2] = random.pick(&[0, wide[0], wide[1], wide[2], 1 << 32 | 1]),
        3 => slot[3] = random.pick(&[0, wide[0], wide[1], wide[2]]),
        4 => slot[4] = random.pick(&[65_535, 65_536, 1 << 16 | 1, wide[0], wide[1], wide[2]]),
        _ => slot.fill(0),
    }
}
