//! The writes of steps in tables near their limits: 1,024 files of 2,000 slots, and many objects.
//! What is written is near the end of both tables.

use std::time::Instant;

use difftest::tables::Lent as Watched;
use numbers::call::{BOTH, ROW, TABLE_OBJECTS, TABLE_PARENTS, WRITES};
use reference::check::{
    Faults, MOST_OBJECTS, MOST_PARENTS, MOST_RESERVE, read_reserve, read_tables,
};
use reference::fid::Fid;
use reference::layout::{Layout, MOST_SLOTS, Stripe, Version};
use reference::position::Position;
use reference::site::Site;
use reference::step::Policy;
use reference::tables::{Claim, OBJECT_BYTES, Object, Owner, PARENT_BYTES, Parent};
use reference::writes::Record::{self, Object as O, Parent as F};
use reference::writes::writes;

/// The file with a fault in each of its last slots.
const LAST: usize = MOST_PARENTS - 1;
/// The unused parent row.
const FREE: usize = LAST - 1;
/// The file that grows, and the one with a hole that is filled.
const SHORT: usize = 5;
const HOLED: usize = 6;

const OST: u32 = 3;
const OTHER_OST: u32 = 5;
const OWNER: Owner = Owner { uid: 7, gid: 8 };
const OTHER_OWNER: Owner = Owner { uid: 9, gid: 8 };

/// The objects by their ids. NAMED, DATA, LATER and WAITING claim the same slot: a slot names the
/// first, the second has data, and the third comes after the last.
const A: u32 = 1;
const NAMED: u32 = 2;
const DATA: u32 = 3;
const LATER: u32 = 4;
const WAITING: u32 = 5;
const BLANK: u32 = 6;
const ELSEWHERE: u32 = 7;
const OWNED: u32 = 8;
const FRESH: u32 = 9;
const TAKER: u32 = 10;
const MAKER: u32 = 11;
const GROWER: u32 = 12;
const FILLER: u32 = 13;
const EMPTY: u32 = 14;
/// One that is not there.
const ABSENT: u32 = 15;
/// The FID of the reserve that nothing uses.
const NEW: u32 = 16;

/// The first unused object row, counted from the end. Another follows it.
const UNUSED: usize = 14;

fn file_fid(row: usize) -> Fid {
    Fid::new(0x2_0000_0401, row as u32 + 1)
}

fn object_fid(id: u32) -> Fid {
    Fid::new(0x2_4000_0400, id)
}

fn stripe(id: u32) -> Option<Stripe> {
    Some(Stripe {
        object: object_fid(id),
        generation: 7,
        ost: OST,
    })
}

/// The objects that the last slots of the last file name, the last first.
const NAMES: [u32; 8] = [A, A, A, BLANK, ABSENT, ELSEWHERE, OWNED, FRESH];

/// The slots of the file in a row. In the last one each slot names an object.
fn slots(row: usize) -> Vec<Option<Stripe>> {
    let id = |slot: usize| (MOST_SLOTS * (row + 1) + slot) as u32;
    let mut slots = vec![None; if row == SHORT { 10 } else { MOST_SLOTS }];
    if row == LAST {
        slots = (0..MOST_SLOTS).map(|slot| stripe(id(slot))).collect();
        let last = slots.iter_mut().rev().zip(NAMES);
        last.for_each(|(slot, id)| *slot = stripe(id));
    } else {
        slots[0] = stripe(if row == 0 { NAMED } else { id(0) });
    }
    slots
}

/// The file in a row; the last one's own id is another's.
fn file(row: usize) -> Parent {
    let fid = file_fid(row);
    Parent {
        fid,
        owner: OWNER,
        layout: Layout {
            version: Version::Three([b'p'; 16]),
            holes_allowed: true,
            own_id: if row == LAST { 1 } else { fid.id.into() },
            own_sequence: fid.sequence,
            stripe_size: 1_048_576,
            generation: u16::MAX,
            slots: slots(row),
        },
    }
}

/// An object with data that claims a slot of the file in a row.
fn data(id: u32, row: usize, slot: usize) -> Object {
    Object {
        fid: object_fid(id),
        ost: OST,
        owner: OWNER,
        claim: Some(Claim {
            parent: file_fid(row),
            index: slot as u32,
        }),
        fresh: false,
    }
}

fn fresh(id: u32, row: usize, slot: usize) -> Object {
    Object {
        fresh: true,
        ..data(id, row, slot)
    }
}

fn elsewhere(object: Object) -> Object {
    Object {
        ost: OTHER_OST,
        owner: OTHER_OWNER,
        ..object
    }
}

/// An object that claims nothing.
fn spare(row: usize) -> Object {
    Object {
        claim: None,
        ..data(3_000_000 + row as u32, 0, 0)
    }
}

/// The objects of the last rows, the last first.
fn last_rows() -> [Option<Object>; UNUSED] {
    let blank = Object {
        claim: None,
        ..elsewhere(data(BLANK, LAST, 0))
    };
    let owned = Object {
        owner: OTHER_OWNER,
        ..data(OWNED, LAST, 1993)
    };
    [
        Some(fresh(LATER, LAST, 1997)),
        Some(elsewhere(fresh(WAITING, LAST, 1997))),
        Some(data(A, LAST, 1998)),
        Some(blank),
        Some(elsewhere(data(ELSEWHERE, LAST, 1994))),
        Some(owned),
        Some(fresh(FRESH, LAST, 1992)),
        Some(elsewhere(data(TAKER, LAST, 1992))),
        Some(elsewhere(data(MAKER, MOST_PARENTS, 1999))),
        Some(elsewhere(data(GROWER, SHORT, 1999))),
        Some(data(FILLER, HOLED, 1000)),
        Some(fresh(EMPTY, HOLED, 1001)),
        None,
        None,
    ]
}

/// Tables and reserve, on both sides.
struct Large {
    lent: Watched,
    site: Site,
    reserve: Vec<u8>,
    fids: Vec<Fid>,
}

impl Large {
    /// With so many object rows. The unused rows of both tables are used as well if it is full.
    fn of(objects: usize, full: bool) -> Large {
        let mut parents = vec![0; MOST_PARENTS * PARENT_BYTES];
        for (row, bytes) in parents.chunks_mut(PARENT_BYTES).enumerate() {
            if full || row != FREE {
                file(row).write(bytes);
            }
        }
        let mut rows: Vec<_> = (0..objects).map(|row| Some(spare(row))).collect();
        rows[0] = Some(fresh(NAMED, LAST, 1997));
        rows[1] = Some(data(DATA, LAST, 1997));
        let last = rows.iter_mut().rev().zip(last_rows());
        for (row, object) in last.filter(|(_, object)| !full || object.is_some()) {
            *row = object;
        }
        let mut bytes = vec![0; objects * OBJECT_BYTES];
        for (bytes, object) in bytes.chunks_mut(OBJECT_BYTES).zip(rows) {
            if let Some(object) = object {
                object.write(bytes);
            }
        }
        let (tables, faults) = read_tables(&parents, &bytes);
        assert_eq!(faults, Faults::new());
        let reserve = reserve(&[NEW]);
        Large {
            lent: Watched::new(parents, bytes),
            site: Site::new(tables),
            fids: read_reserve(&reserve, &mut Faults::new()),
            reserve,
        }
    }

    /// The row of an object.
    fn row_of(&self, id: u32) -> usize {
        self.site.object_row(object_fid(id)).expect("an object")
    }

    /// The first unused object row.
    fn unused(&self) -> usize {
        self.site.tables().objects.len() - UNUSED
    }

    /// Both sides tell these writes of a step, or this stop.
    fn expect(&self, position: Position, wanted: Result<Vec<Record>, u32>) {
        let numbers = position.to_numbers();
        let mut out = [99; WRITES + 1];
        let answer = self.lent.to(|parents, objects| {
            lfsck_sys::step_writes(parents, objects, &self.reserve, BOTH, numbers, &mut out)
        });
        let told = if answer == 0 {
            Ok(records(&out))
        } else {
            assert_eq!(out, [99; WRITES + 1]);
            Err(answer)
        };
        assert_eq!(told, wanted, "{position:?}");
        let policy = Policy::of_number(BOTH);
        let ours = writes(&self.site, position, policy, &self.fids);
        assert_eq!(ours, wanted, "{position:?}");
    }

    /// What a redirect of the last slot, a redirect to the object that waits and an orphan that
    /// takes a place write.
    fn expect_three(&self) {
        self.expect(slot(1999), Ok(vec![O(self.unused()), F(LAST)]));
        self.expect(slot(1997), Ok(vec![O(self.row_of(WAITING)), F(LAST)]));
        let [taker, destroyed] = [TAKER, FRESH].map(|id| self.row_of(id));
        let wanted = vec![F(LAST), O(taker), O(destroyed)];
        self.expect(Position::Object { row: taker }, Ok(wanted));
    }
}

/// A reserve of as many entries as there may be: a FID that is in use, and at the end these.
fn reserve(last: &[u32]) -> Vec<u8> {
    let used = std::iter::repeat_n(NAMED, MOST_RESERVE - last.len());
    let ids = used.chain(last.iter().copied());
    ids.flat_map(|id| object_fid(id).to_bytes()).collect()
}

/// A slot of the last file.
fn slot(slot: usize) -> Position {
    Position::Slot { row: LAST, slot }
}

/// The writes in a list of numbers, whose last place it leaves.
fn records(out: &[u64; WRITES + 1]) -> Vec<Record> {
    assert_eq!(out[WRITES], 99);
    let rows = out[1..WRITES].chunks_exact(ROW);
    let (used, unused): (Vec<_>, Vec<_>) =
        rows.enumerate().partition(|(at, _)| *at < out[0] as usize);
    assert!(unused.iter().all(|(_, row)| *row == [0, 0]));
    let record = |(_, row): (usize, &[u64])| match row[0] {
        TABLE_PARENTS => F(row[1] as usize),
        TABLE_OBJECTS => O(row[1] as usize),
        table => panic!("no table {table}"),
    };
    used.into_iter().map(record).collect()
}

#[test]
fn every_kind_of_step_in_large_tables() {
    let started = Instant::now();
    let large = Large::of(20_000, false);
    let row = |id| large.row_of(id);
    large.expect_three();
    for (position, wanted) in [
        (Position::Header { row: LAST }, vec![F(LAST)]),
        (Position::Header { row: FREE }, vec![]),
        (slot(1998), vec![]),
        (slot(1996), vec![O(row(BLANK)), F(LAST)]),
        (slot(1995), vec![O(large.unused())]),
        (slot(1994), vec![O(row(ELSEWHERE)), F(LAST)]),
        (slot(1993), vec![O(row(OWNED))]),
        (slot(1992), vec![]),
    ] {
        large.expect(position, Ok(wanted));
    }
    for (row, wanted) in [
        (row(DATA), vec![]),
        (row(MAKER), vec![F(FREE)]),
        (row(GROWER), vec![F(SHORT), O(row(GROWER))]),
        (row(FILLER), vec![F(HOLED)]),
        (row(EMPTY), vec![O(row(EMPTY))]),
        (large.unused(), vec![]),
    ] {
        large.expect(Position::Object { row }, Ok(wanted));
    }
    println!("large tables in {:.1} s", started.elapsed().as_secs_f64());
}

#[test]
fn stops_in_large_tables() {
    let started = Instant::now();
    let mut large = Large::of(20_000, true);
    let maker = Position::Object {
        row: large.row_of(MAKER),
    };
    large.expect(slot(1999), Err(22));
    large.expect(slot(1995), Err(22));
    large.expect(maker, Err(23));
    large.reserve = reserve(&[NAMED]);
    large.fids = read_reserve(&large.reserve, &mut Faults::new());
    large.expect(slot(1999), Err(21));
    large.expect(slot(1997), Ok(vec![O(large.row_of(WAITING)), F(LAST)]));
    println!("full tables in {:.1} s", started.elapsed().as_secs_f64());
}

#[test]
fn writes_in_the_greatest_tables() {
    let started = Instant::now();
    Large::of(MOST_OBJECTS, false).expect_three();
    println!(
        "greatest tables in {:.1} s",
        started.elapsed().as_secs_f64()
    );
}
