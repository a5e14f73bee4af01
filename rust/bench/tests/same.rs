//! The plain algorithm does what the library does, so the comparison is a fair one.

use bench::input::{Shape as Size, Tables};
use bench::plain;
use difftest::tables::{OBJECTS, Shape, TINY, crowd, damage, random_tables, to_bytes};
use difftest::{Coverage, Random};
use numbers::call::{self, END, REPORT};
use numbers::fid::FIRST_SEQUENCE;
use numbers::layout::{
    COUNT_AT, HEADER_THREE, MOST_SLOTS, SLOT_BYTES, STRIPE_SIZE_AT, STRIPE_UNIT,
};
use numbers::{object, parent, reserve};
use reference::fid::Fid;
use reference::position::Position;

const SHAPE: Shape = Shape {
    parents: 5,
    objects: 8,
    slots: 5,
    files: 5,
    fids: 8,
};

#[test]
fn runs_are_those_of_the_library() {
    let mut random = Random::for_test("plain runs");
    for _ in 0..20_000 {
        let (parents, objects) = to_bytes(&random_tables(SHAPE, &mut random), &mut random);
        let mut reserve: Vec<u8> = OBJECTS.iter().flat_map(|fid| fid.to_bytes()).collect();
        reserve.truncate(16 * random.below(11));
        let policy = random.below(5) as u64;
        let most = random.pick(&[0, 3, 20, u64::MAX]);
        let mut start = [0; 3];
        assert_eq!(lfsck_sys::start(&parents, &objects, &mut start), 0);

        let lent = (parents, objects);
        compare_run(&lent, &reserve, policy, most, start);
    }
}

/// A run of one side.
type Run = fn(&mut [u8], &mut [u8], &[u8], u64, u64, &mut [u64; 3], &mut [u64; REPORT]) -> u32;

/// What a run tells: answer, position and report.
type Told = (u32, [u64; 3], [u64; REPORT]);

/// What a run that both sides make alike tells, tables and all.
fn compare_run(
    lent: &(Vec<u8>, Vec<u8>),
    reserve: &[u8],
    policy: u64,
    most: u64,
    start: [u64; 3],
) -> Told {
    let ran = |run: Run| {
        let (mut position, mut report) = (start, [0; REPORT]);
        let (mut parents, mut objects) = lent.clone();
        let answer = run(
            &mut parents,
            &mut objects,
            reserve,
            policy,
            most,
            &mut position,
            &mut report,
        );
        ((answer, position, report), (parents, objects))
    };
    let (told, library) = ran(
        |parents, objects, reserve, policy, most, position, report| {
            lfsck_sys::run(parents, objects, reserve, policy, most, position, report)
        },
    );
    let (plain_told, plain) = ran(plain::run);
    assert_eq!(plain_told, told);
    assert!(plain == library, "tables after a run of policy {policy}");
    told
}

/// A whole run of both sides on tables of the benchmarks: the repairs by class.
fn compare_whole(tables: Tables, policy: u64) -> [u64; call::COUNTED] {
    let size = tables.shape;
    let lent = (tables.parents, tables.objects);
    let (answer, position, report) =
        compare_run(&lent, &tables.reserve, policy, u64::MAX, [1, 0, 0]);
    assert_eq!((answer, position), (0, END), "{size:?}, policy {policy}");
    let steps = size.count() + size.slots + size.objects;
    assert_eq!(report[0], steps as u64, "{size:?}, policy {policy}");
    report[1..].try_into().expect("the counts")
}

#[test]
fn small_tables_of_the_benchmarks_are_repaired_alike() {
    for file_slots in [100, 160, 1000, MOST_SLOTS] {
        let size = Size {
            file_slots,
            slots: 3 * file_slots + file_slots / 2,
            objects: file_slots,
            reserve: 100,
        };
        for policy in 0..=call::BOTH {
            let counts = compare_whole(Tables::clean(size), policy);
            assert_eq!(counts, [0; call::COUNTED], "{size:?}, policy {policy}");
            let counts = compare_whole(Tables::damaged(size), policy);
            assert_ne!(counts, [0; call::COUNTED], "{size:?}, policy {policy}");
        }
    }
}

/// Every redirect uses an object that waits, and nothing else is repaired.
#[test]
fn redirects_of_the_benchmarks_use_objects_that_wait() {
    let small = Size {
        file_slots: 160,
        slots: 4_000,
        objects: 1_000,
        reserve: 0,
    };
    let thousand = Size {
        reserve: 0,
        ..Size::THOUSAND
    };
    for (size, policy) in [
        (small, call::CREATE),
        (small, call::BOTH),
        (thousand, call::CREATE),
    ] {
        let counts = compare_whole(Tables::waiting(size), policy);
        let mut expected = [0; call::COUNTED];
        expected[1] = size.slots as u64 / 100;
        assert_eq!(counts, expected, "{size:?}, policy {policy}");
    }
}

#[test]
fn a_million_clean_slots_need_nothing() {
    let counts = compare_whole(Tables::clean(Size::MILLION), 0);
    assert_eq!(counts, [0; call::COUNTED]);
}

/// There are 10,000 faults in seven ways in turn. With neither create nor adopt a run repairs those of
/// four ways.
#[test]
fn a_million_damaged_slots_are_repaired_alike() {
    let counts = compare_whole(Tables::damaged(Size::MILLION), 0);
    let [blank, unmatched, owner, wrong_ost] = [1429, 1429, 1428, 1428];
    assert_eq!(counts, [0, 0, 0, blank, unmatched, owner, 0, 0, wrong_ost]);
}

/// At every position of random tables, the end too, and at one that there is not.
#[test]
fn the_writes_are_those_of_the_library() {
    let mut random = Random::for_test("plain writes");
    let mut answers = Coverage::of("plain writes", [0, 12, 16, 21, 22, 23]);
    let mut numbers = Coverage::of("plain writes of a step", 0..=call::MOST_WRITES as u64);
    for _ in 0..10_000 {
        let mut tables = random_tables(TINY, &mut random);
        crowd(&mut tables, &mut random);
        let (parents, objects) = to_bytes(&tables, &mut random);
        let mut reserve: Vec<u8> = OBJECTS.iter().flat_map(|fid| fid.to_bytes()).collect();
        reserve.truncate(16 * random.below(11));
        let policy = random.below(5) as u64;
        let positions = Position::all(&tables).map(Position::to_numbers);
        for position in positions.chain([[1, 99, 0]]) {
            let (mut out, mut plain_out) = ([99; call::WRITES], [99; call::WRITES]);
            let (parents, objects, reserve) = (&parents, &objects, &reserve);
            let answer =
                lfsck_sys::step_writes(parents, objects, reserve, policy, position, &mut out);
            let to = &mut plain_out;
            let plain_answer = plain::step_writes(parents, objects, reserve, policy, position, to);
            assert_eq!((plain_answer, plain_out), (answer, out));
            answers.met(answer);
            if answer == 0 {
                numbers.met(out[0]);
            }
        }
    }
    answers.require(100);
    numbers.require(20);
}

#[test]
fn the_classes_are_those_of_the_library() {
    let mut random = Random::for_test("plain classes");
    let mut met = [0_u64; call::CLASSES];
    for _ in 0..20_000 {
        let (parents, objects) = to_bytes(&random_tables(SHAPE, &mut random), &mut random);
        let mut start = [0; 3];
        assert_eq!(lfsck_sys::start(&parents, &objects, &mut start), 0);
        let room = random.below(200);
        let places = random.numbers(room);
        let (out, done) = compare_listing(&parents, &objects, start, &places);
        let told = out.chunks(4).take(done as usize);
        told.for_each(|class| met[class[0] as usize] += 1);
    }
    println!("{met:?}");
    assert!(met.iter().all(|&count| count > 100), "{met:?}");
}

/// The classes from a position on, by both sides: what is in the places then, and how many were
/// told.
fn compare_listing(
    parents: &[u8],
    objects: &[u8],
    start: [u64; 3],
    places: &[u64],
) -> (Vec<u64>, u64) {
    let (mut position, mut out, mut done) = (start, places.to_vec(), [0]);
    let answer = lfsck_sys::classes(parents, objects, &mut position, &mut out, &mut done);
    let (mut plain_position, mut plain_out, mut plain_done) = (start, places.to_vec(), 0);
    let plain_answer = plain::classes(
        parents,
        objects,
        &mut plain_position,
        &mut plain_out,
        &mut plain_done,
    );
    assert_eq!(plain_answer, answer);
    assert_eq!((plain_position, plain_done), (position, done[0]));
    assert_eq!(plain_out, out);
    (out, done[0])
}

/// Of FIDs that are known and of others, good and not, in tables that pass the check and in damaged
/// ones.
#[test]
fn keepers_are_those_of_the_library() {
    let mut random = Random::for_test("plain keepers");
    let mut answers = Coverage::of("plain keepers", [0, 11, 13, 14, 15]);
    let mut found = Coverage::of("plain keepers found", [false, true]);
    let mut compared = Coverage::of("slots compared", ["none", "one", "several"]);
    for _ in 0..20_000 {
        let (mut parents, mut objects) = to_bytes(&random_tables(SHAPE, &mut random), &mut random);
        if random.one_in(4) {
            damage(&mut parents, &mut objects, &mut random);
        }
        for fid in OBJECTS {
            let [sequence, id] = random_numbers(fid, &mut random);
            let (mut out, mut plain_out) = ([99; call::KEEPER], [99; call::KEEPER]);
            let answer = lfsck_sys::keeper(&parents, &objects, sequence, id, &mut out);
            let plain_answer = plain::keeper(&parents, &objects, sequence, id, &mut plain_out);
            assert_eq!((plain_answer, plain_out), (answer, out));
            answers.met(answer);
            if answer == 0 {
                found.met(out[0] == 1);
                compared.met(["none", "one", "several"][out[3].min(2) as usize]);
            }
        }
    }
    answers.require(1000);
    found.require(1000);
    compared.require(1000);
}

/// The numbers of a FID, now and then changed so that it is not good.
fn random_numbers(fid: Fid, random: &mut Random) -> [u64; 2] {
    let (sequence, id) = (fid.sequence, u64::from(fid.id));
    match random.below(16) {
        0 => [random.pick(&[0, FIRST_SEQUENCE - 1, u64::MAX]), id],
        1 => [sequence, 0],
        2 => [sequence, id | 1 << 32],
        _ => [sequence, id],
    }
}

/// The bytes of a parent row up to a few behind the longest layout of these tables.
const NEAR: usize = parent::LAYOUT_AT + HEADER_THREE + SLOT_BYTES * SHAPE.slots + 10;

#[test]
fn the_check_is_that_of_the_library() {
    let mut random = Random::for_test("plain check");
    let mut answers = Coverage::of("plain check", [0, 11, 12, 13, 14, 16]);
    for _ in 0..20_000 {
        let (mut parents, mut objects) = to_bytes(&random_tables(SHAPE, &mut random), &mut random);
        let mut reserve: Vec<u8> = OBJECTS[..3].iter().flat_map(|fid| fid.to_bytes()).collect();
        let (table, size) = match random.below(3) {
            0 => (&mut parents, parent::BYTES),
            1 => (&mut objects, object::BYTES),
            _ => (&mut reserve, reserve::BYTES),
        };
        if !table.is_empty() {
            let row = random.below(table.len() / size);
            let at = size * row + random.below(size.min(NEAR));
            table[at] = random.any() as u8;
        }
        let position = [1, 2, 3, 4].map(|_| random.below(5) as u64);
        let [policy, stage, row, part] = position;
        let position = [stage, row, part];
        let answer = lfsck_sys::check(&parents, &objects, &reserve, policy, position);
        let plain = plain::check(&parents, &objects, &reserve, policy, position);
        assert_eq!(plain, answer);
        if answer != 15 {
            answers.met(answer);
        }
    }
    answers.require(100);
}

/// Stripe sizes at the bounds of their rule in tables that else pass the check: the check, a run,
/// the classes and a keeper.
#[test]
fn stripe_sizes_are_those_of_the_library() {
    let mut random = Random::for_test("plain stripe sizes");
    let mut seen = Coverage::of("plain stripe sizes", STRIPE_SIZES);
    while seen.total() < 2_000 {
        let (size, expected) = random.pick(&STRIPE_SIZES);
        let (mut parents, objects) = to_bytes(&random_tables(SHAPE, &mut random), &mut random);
        let mut rows = parents.chunks_mut(parent::BYTES).filter(|row| row[0] == 1);
        let Some(row) = rows.next() else { continue };
        row[parent::LAYOUT_AT..][STRIPE_SIZE_AT..COUNT_AT].copy_from_slice(&size.to_le_bytes());
        let answer = lfsck_sys::check(&parents, &objects, &[], 0, END);
        assert_eq!(answer, expected, "{size}");
        assert_eq!(plain::check(&parents, &objects, &[], 0, END), answer);
        compare_listing(&parents, &objects, [1, 0, 0], &[7; 2 * call::CLASS]);
        let lent = (parents, objects);
        let (ran, ..) = compare_run(&lent, &[], 0, u64::MAX, [1, 0, 0]);
        assert_eq!(ran, answer, "{size}");
        let (mut out, mut plain_out) = ([99; call::KEEPER], [99; call::KEEPER]);
        let [sequence, id] = [OBJECTS[0].sequence, OBJECTS[0].id.into()];
        let kept = lfsck_sys::keeper(&lent.0, &lent.1, sequence, id, &mut out);
        let plain_kept = plain::keeper(&lent.0, &lent.1, sequence, id, &mut plain_out);
        assert_eq!((kept, plain_kept, plain_out), (answer, answer, out));
        seen.met((size, answer));
    }
    seen.require(100);
}

/// Stripe sizes, and the answer of the check to them.
const STRIPE_SIZES: [(u32, u32); 8] = [
    (0, 13),
    (1, 13),
    (STRIPE_UNIT - 1, 13),
    (STRIPE_UNIT, 0),
    (STRIPE_UNIT + 1, 13),
    (2 * STRIPE_UNIT, 0),
    (65_535 * STRIPE_UNIT, 0),
    (u32::MAX, 13),
];

/// The numbers of a linkEA of a few records, and bytes for their names.
fn random_names(random: &mut Random) -> ([u64; 4], Vec<u64>, Vec<u8>) {
    let names: Vec<u8> = (0..20).map(|_| 1 + random.below(40) as u8).collect();
    let count = random.below(4);
    let mut records = Vec::new();
    let mut total = 24;
    for _ in 0..count {
        let (start, length) = (random.below(18) as u64, 1 + random.below(2) as u64);
        let [id, version] = [random.any() as u32, random.any() as u32].map(u64::from);
        records.extend([random.any(), id, version, start, length]);
        total += 18 + length;
    }
    (
        [count as u64, total, random.any() as u32 as u64, 7],
        records,
        names,
    )
}

/// A linkEA read by both: its header, and the record at some places.
fn compare_reading(
    bytes: &[u8],
    random: &mut Random,
    read: &mut Coverage<u32>,
    found: &mut Coverage<u32>,
) {
    let (mut fields, mut plain_fields) = ([1; 4], [1; 4]);
    let answer = lfsck_sys::link_read(bytes, &mut fields);
    assert_eq!(plain::link_read(bytes, &mut plain_fields), answer);
    assert_eq!(plain_fields, fields);
    read.met(answer);
    for place in [24, 43, 44, random.below(100) as u64] {
        let (mut record, mut plain_record) = ([1; 6], [1; 6]);
        let answer = lfsck_sys::link_record(bytes, place, &mut record);
        assert_eq!(plain::link_record(bytes, place, &mut plain_record), answer);
        assert_eq!(plain_record, record);
        found.met(answer);
    }
}

#[test]
fn linkeas_are_those_of_the_library() {
    let mut random = Random::for_test("plain linkEAs");
    let mut written = Coverage::of("plain linkEAs written", [0, 17, 31]);
    let mut read = Coverage::of("plain linkEAs read", [0, 31]);
    let mut found = Coverage::of("plain records read", [0, 16, 31]);
    for _ in 0..50_000 {
        let (mut fields, mut records, names) = random_names(&mut random);
        if random.one_in(4) {
            fields[random.below(4)] ^= 1 << random.below(64);
        } else if random.one_in(4) && !records.is_empty() {
            let at = random.below(records.len());
            records[at] ^= 1 << random.below(64);
        }
        let room = random.pick(&[100, 100, 60, 24]);
        let (mut bytes, mut length) = (vec![0xab; room], [0]);
        let (mut plain_bytes, mut plain_length) = (bytes.clone(), 0);
        let answer = lfsck_sys::link_write(&fields, &records, &names, &mut bytes, &mut length);
        let to = &mut plain_bytes;
        let plain_answer = plain::link_write(&fields, &records, &names, to, &mut plain_length);
        assert_eq!((plain_answer, plain_length), (answer, length[0]));
        assert_eq!(plain_bytes, bytes);
        written.met(answer);

        bytes.truncate(if answer == 0 {
            length[0] as usize
        } else {
            room
        });
        if random.one_in(2) {
            let at = random.below(bytes.len());
            bytes[at] ^= 1 << random.below(8);
        }
        compare_reading(&bytes, &mut random, &mut read, &mut found);
    }
    written.require(100);
    read.require(100);
    found.require(100);
}
