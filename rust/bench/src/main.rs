//! `make bench`: the verified library beside the same algorithm in plain Rust.

use std::io::Write;
use std::time::Duration;

use bench::dump::{self, Dump};
use bench::input::{Names, OBJECTS, PAST_OBJECTS, Shape, Tables};
use bench::measure::{Timed, Times, side_by_side, timed};
use bench::namespace::Namespace;
use bench::plain;
use numbers::call::{self, END};
use numbers::intake::{MOST_PIECE, STATE};
use numbers::layout::MOST_SLOTS;
use numbers::names::{MOST_LEVELS, WORKING};
use numbers::{child, link, object, parent};

/// The ratio that the library is to keep to.
const MOST_RATIO: f64 = 1.3;
/// How often each measurement is taken, unless the command line says otherwise.
const ROUNDS: usize = 3;
/// Neither create nor adopt.
const NEITHER: u64 = 0;
/// The counts of a report that damage raises without create and adopt: those of BLANK, UNMATCHED,
/// OWNER and WRONG-OST.
const MENDED: [usize; 4] = [4, 5, 6, 9];
/// Those that it raises with both: MULTIPLE, DANGLING and ORPHAN besides.
const REPAIRED: [usize; 7] = [2, 3, 4, 5, 6, 8, 9];
/// That of MULTIPLE.
const REDIRECTED: [usize; 1] = [2];
/// The sizes between which the growth is measured.
const SIZES: [usize; 5] = [10_000, 20_000, 40_000, 80_000, 160_000];

/// The calls for a keeper in one measurement.
const KEEPERS: u64 = 1_000;
/// The objects of their tables: few, so that a FID twice is soon looked for.
const KEPT: u64 = 100;

/// The calls for the writes of a step in one measurement.
const LISTS: usize = 1_000;
/// The objects of their tables: more than there is damage, and few, so that a FID twice is soon
/// looked for.
const WRITTEN: usize = 2_000;

/// The records of a linkEA that is written or whose header is read.
const RECORDS: usize = 1_000_000;
/// The records of one that is walked, each of which is a look at all of it.
const WALKED: usize = 2_000;
/// The bytes of a name.
const NAME: usize = 16;

/// The children of a namespace, each with an entry.
const CHILDREN: usize = child::MOST;

/// The bytes of a dump that is taken in.
const DUMP: usize = 1_000_000_000;
/// The unused rows that are lent with each piece: more than one can fill.
const LENT_FILES: usize = 128;
const LENT_OBJECTS: usize = 256;
/// The dumps, by slots of a file and objects for each: one of a site, where each slot has its
/// object, one that is mostly layouts, and one with the longest layouts that there are.
const DUMPS: [[usize; 2]; 3] = [[4, 4], [160, 8], [MOST_SLOTS, 8]];

/// How damaged tables are told from clean ones.
const DAMAGED: &str = "one slot in a hundred damaged";

/// Answer, position, report and tables after a run.
type Ran = (u32, [u64; call::POSITION], [u64; call::REPORT], Tables);

fn main() {
    let rounds = std::env::args().nth(1);
    let rounds = rounds.map_or(ROUNDS, |word| word.parse().expect("a number of rounds"));
    println!("The verified library beside plain Rust, best of {rounds} each.\n");
    println!("| What | Library | Plain Rust | Ratio | Growth: library, plain Rust |");
    println!("|---|---|---|---|---|");
    measure_check(rounds);
    let classes = measure_growth(rounds);
    measure_run(rounds);
    measure_reuse(rounds);
    measure_million(rounds);
    measure_listing(rounds);
    measure_keepers(rounds);
    measure_writes(rounds);
    measure_link(rounds);
    measure_names(rounds);
    for [slots, objects] in DUMPS {
        measure_intake(dump::Shape { slots, objects }, rounds);
    }
    let [least, most] = [SIZES[0], SIZES[SIZES.len() - 1]];
    println!(
        "\nFrom {} to {} slots, {} times as many, the classes grow by{}.",
        grouped(least),
        grouped(most),
        most / least,
        growth(classes[0], classes[SIZES.len() - 1])
    );
}

/// The check of as many files as there may be, of 160 slots and of as many as they may have.
fn measure_check(rounds: usize) {
    for shape in [Shape::files(parent::MOST, 160), Shape::FULL] {
        let mut tables = Tables::clean(shape);
        tables.fill();
        let (parents, objects, reserve) = (&tables.parents, &tables.objects, &tables.reserve);
        let times = side_by_side(
            rounds,
            || timed(|| lfsck_sys::check(parents, objects, reserve, call::BOTH, END)),
            || timed(|| plain::check(parents, objects, reserve, call::BOTH, END)),
        );
        let reserve = grouped(shape.reserve);
        let what = format!("check: {}, {reserve} reserve FIDs", told(shape));
        print_line(&what, times, "");
    }
}

/// The classes at each size, with the growth from the one before.
fn measure_growth(rounds: usize) -> Vec<Times> {
    let mut all: Vec<Times> = Vec::new();
    for slots in SIZES {
        let shape = Shape {
            slots,
            objects: slots * object::MOST / SIZES[SIZES.len() - 1],
            reserve: 0,
            ..Shape::THOUSAND
        };
        let times = measure_clean(shape, call::BOTH, rounds);
        let growth = all.last().map(|before| growth(*before, times));
        let (slots, objects) = (grouped(slots), grouped(shape.objects));
        let what = format!("classes of all positions: {slots} slots, {objects} objects, clean");
        print_line(&what, times, &growth.unwrap_or_default());
        all.push(times);
    }
    all
}

/// A whole run on clean tables, which changes nothing. With create and adopt it asks for the class
/// of every position, with neither for those of headers and slots.
fn measure_clean(shape: Shape, policy: u64, rounds: usize) -> Times {
    let tables = Tables::clean(shape);
    side_by_side(
        rounds,
        || unchanged(run(&tables, policy, lfsck_run), &tables),
        || unchanged(run(&tables, policy, plain::run), &tables),
    )
}

/// A whole run with repairs of these counts.
fn measure_repairs(tables: &Tables, policy: u64, counts: &[usize], rounds: usize) -> Times {
    side_by_side(
        rounds,
        || repaired(run(tables, policy, lfsck_run), counts),
        || repaired(run(tables, policy, plain::run), counts),
    )
}

/// A whole run on damaged tables with create and adopt.
fn measure_run(rounds: usize) {
    let shape = Shape::THOUSAND;
    let tables = Tables::damaged(shape);
    let times = measure_repairs(&tables, call::BOTH, &REPAIRED, rounds);
    let what = format!("run, policy {}: {}, {DAMAGED}", call::BOTH, told(shape));
    print_line(&what, times, "");
}

/// A whole run without reserve, in which every redirect uses an object that waits for its slot.
fn measure_reuse(rounds: usize) {
    let shape = Shape {
        reserve: 0,
        ..Shape::THOUSAND
    };
    let tables = Tables::waiting(shape);
    let times = measure_repairs(&tables, call::CREATE, &REDIRECTED, rounds);
    let what = format!(
        "run, policy {}: {}, one slot in a hundred redirected to an object that waits",
        call::CREATE,
        told(shape)
    );
    print_line(&what, times, "");
}

/// Whole runs on a million slots with neither create nor adopt.
fn measure_million(rounds: usize) {
    let shape = Shape::MILLION;
    let what = format!("run, policy {NEITHER}: {}", told(shape));
    let times = measure_clean(shape, NEITHER, rounds);
    print_line(&format!("{what}, clean"), times, "");
    let times = measure_repairs(&Tables::damaged(shape), NEITHER, &MENDED, rounds);
    print_line(&format!("{what}, {DAMAGED}"), times, "");
}

/// All classes of damaged tables in one call.
fn measure_listing(rounds: usize) {
    let shape = Shape::THOUSAND;
    let tables = Tables::damaged(shape);
    let times = side_by_side(
        rounds,
        || list(&tables, lfsck_classes),
        || list(&tables, plain::classes),
    );
    let what = format!("all classes in one call: {}, {DAMAGED}", told(shape));
    print_line(&what, times, "");
}

/// All classes by either side.
type ListCall = fn(&[u8], &[u8], &mut [u64; call::POSITION], &mut [u64], &mut u64) -> u32;

/// The library's classes.
fn lfsck_classes(
    parents: &[u8],
    objects: &[u8],
    position: &mut [u64; call::POSITION],
    out: &mut [u64],
    done: &mut u64,
) -> u32 {
    lfsck_sys::classes(parents, objects, position, out, std::slice::from_mut(done))
}

/// Times the classes from the start, all of which must be told.
fn list(tables: &Tables, call: ListCall) -> Timed<Vec<u64>> {
    let (parents, objects) = (&tables.parents, &tables.objects);
    let mut steps = [0];
    assert_eq!(lfsck_sys::steps(parents, objects, &mut steps), 0);
    let mut out = vec![0; 4 * steps[0] as usize];
    let (mut position, mut done) = ([1, 0, 0], 0);
    let Timed { result, took } =
        timed(|| call(parents, objects, &mut position, &mut out, &mut done));
    assert_eq!((result, position, done), (0, END, steps[0]));
    Timed { result: out, took }
}

/// Keepers asked for one after the other in a thousand files of which every slot names an object: of
/// objects that claim the slots that name them, and of FIDs that no slot names.
fn measure_keepers(rounds: usize) {
    let shape = Shape {
        objects: KEPT as usize,
        reserve: 0,
        ..Shape::THOUSAND
    };
    let mut tables = Tables::clean(shape);
    tables.fill();
    let clean: Vec<u64> = (0..KEEPERS).map(|call| call % KEPT + 1).collect();
    let unnamed = (0..KEEPERS).map(|call| PAST_OBJECTS + call).collect();
    let all = shape.slots as u64;
    for (what, ids, keeper) in [
        ("of a clean slot's object", clean, [1, 1]),
        ("of a FID that nothing names", unnamed, [0, all]),
    ] {
        let times = side_by_side(
            rounds,
            || keepers(&tables, &ids, keeper, lfsck_keeper),
            || keepers(&tables, &ids, keeper, plain::keeper),
        );
        let calls = grouped(KEEPERS as usize);
        let what = format!("keeper {what}, {calls} calls: {}", told(shape));
        print_line(&what, times, "");
    }
}

/// A keeper by either side.
type KeeperCall = fn(&[u8], &[u8], u64, u64, &mut [u64; call::KEEPER]) -> u32;

/// The library's keeper.
fn lfsck_keeper(
    parents: &[u8],
    objects: &[u8],
    sequence: u64,
    id: u64,
    out: &mut [u64; call::KEEPER],
) -> u32 {
    lfsck_sys::keeper(parents, objects, sequence, id, out)
}

/// Times the calls for some ids, all of which must find a keeper, or none, with so many slots
/// compared.
fn keepers(
    tables: &Tables,
    ids: &[u64],
    [found, compared]: [u64; 2],
    call: KeeperCall,
) -> Timed<Vec<[u64; call::KEEPER]>> {
    let told = timed(|| {
        let keeper = |&id| {
            let mut out = [0; call::KEEPER];
            let answer = call(&tables.parents, &tables.objects, OBJECTS, id, &mut out);
            assert_eq!(answer, 0);
            out
        };
        ids.iter().map(keeper).collect::<Vec<_>>()
    });
    let is_so = |keeper: &[u64; call::KEEPER]| [keeper[0], keeper[3]] == [found, compared];
    assert!(told.result.iter().all(is_so));
    told
}

/// The writes of the steps that repair damage, asked for one after the other.
fn measure_writes(rounds: usize) {
    let shape = Shape {
        objects: WRITTEN,
        reserve: WRITTEN,
        ..Shape::THOUSAND
    };
    let tables = Tables::damaged(shape);
    let times = side_by_side(
        rounds,
        || writes(&tables, lfsck_step_writes),
        || writes(&tables, plain::step_writes),
    );
    let calls = grouped(LISTS);
    let what = format!(
        "writes of a step, {calls} calls: {}, {DAMAGED}",
        told(shape)
    );
    print_line(&what, times, "");
}

/// The writes of a step by either side.
type WritesCall =
    fn(&[u8], &[u8], &[u8], u64, [u64; call::POSITION], &mut [u64; call::WRITES]) -> u32;

/// The library's writes of a step.
fn lfsck_step_writes(
    parents: &[u8],
    objects: &[u8],
    reserve: &[u8],
    policy: u64,
    position: [u64; call::POSITION],
    out: &mut [u64; call::WRITES],
) -> u32 {
    lfsck_sys::step_writes(parents, objects, reserve, policy, position, out)
}

/// Times the calls for steps that repair damage, each of which must have a write.
fn writes(tables: &Tables, call: WritesCall) -> Timed<Vec<[u64; call::WRITES]>> {
    let positions: Vec<_> = tables.repairs().take(LISTS).collect();
    assert_eq!(positions.len(), LISTS);
    let (parents, objects, reserve) = (&tables.parents, &tables.objects, &tables.reserve);
    let told = timed(|| {
        let list = |&position| {
            let mut out = [0; call::WRITES];
            let answer = call(parents, objects, reserve, call::BOTH, position, &mut out);
            assert_eq!(answer, 0);
            out
        };
        positions.iter().map(list).collect::<Vec<_>>()
    });
    assert!(told.result.iter().all(|list| list[0] > 0));
    told
}

/// A run by either side.
type RunCall = fn(
    &mut [u8],
    &mut [u8],
    &[u8],
    u64,
    u64,
    &mut [u64; call::POSITION],
    &mut [u64; call::REPORT],
) -> u32;

/// The library's run.
fn lfsck_run(
    parents: &mut [u8],
    objects: &mut [u8],
    reserve: &[u8],
    policy: u64,
    most: u64,
    position: &mut [u64; call::POSITION],
    report: &mut [u64; call::REPORT],
) -> u32 {
    lfsck_sys::run(parents, objects, reserve, policy, most, position, report)
}

/// Times a run from the start, which must get to the end.
fn run(tables: &Tables, policy: u64, call: RunCall) -> Timed<Ran> {
    let mut after = tables.clone();
    let (mut position, mut report) = ([1, 0, 0], [0; call::REPORT]);
    let Timed { result, took } = timed(|| {
        call(
            &mut after.parents,
            &mut after.objects,
            &after.reserve,
            policy,
            u64::MAX,
            &mut position,
            &mut report,
        )
    });
    assert_eq!((result, position), (0, END));
    Timed {
        result: (result, position, report, after),
        took,
    }
}

/// A run that had nothing to repair.
fn unchanged(run: Timed<Ran>, before: &Tables) -> Timed<Ran> {
    let (_, _, report, after) = &run.result;
    assert_eq!(report[1..], [0; call::COUNTED]);
    assert!(after == before, "a run changed clean tables");
    run
}

/// A run that had repairs of these counts of its report, and no others.
fn repaired(run: Timed<Ran>, counts: &[usize]) -> Timed<Ran> {
    let (_, _, report, _) = &run.result;
    for (at, &count) in report.iter().enumerate().skip(1) {
        let is_so = if counts.contains(&at) {
            count > 100
        } else {
            count == 0
        };
        assert!(is_so, "{report:?}");
    }
    run
}

/// A long linkEA written and its header read, and a shorter one read record by record.
fn measure_link(rounds: usize) {
    let given = Names::of(RECORDS, NAME);
    let link = write(&given, lfsck_link_write).result;
    let times = side_by_side(
        rounds,
        || write(&given, lfsck_link_write),
        || write(&given, plain::link_write),
    );
    print_link("written", RECORDS, times);
    let times = side_by_side(
        rounds,
        || read(&link, lfsck_link_read),
        || read(&link, plain::link_read),
    );
    print_link("header read", RECORDS, times);
    let link = write(&Names::of(WALKED, NAME), lfsck_link_write).result;
    let times = side_by_side(
        rounds,
        || walk(&link, lfsck_link_record),
        || walk(&link, plain::link_record),
    );
    print_link("walked record by record", WALKED, times);
}

fn print_link(what: &str, records: usize, times: Times) {
    let records = grouped(records);
    let what = format!("linkEA {what}: {records} records, names of {NAME} bytes");
    print_line(&what, times, "");
}

/// A linkEA written by either side.
type WriteCall = fn(&[u64; call::LINK_HEADER], &[u64], &[u8], &mut [u8], &mut u64) -> u32;

/// The library's writer.
fn lfsck_link_write(
    fields: &[u64; call::LINK_HEADER],
    records: &[u64],
    names: &[u8],
    destination: &mut [u8],
    out: &mut u64,
) -> u32 {
    let out = std::slice::from_mut(out);
    lfsck_sys::link_write(fields, records, names, destination, out)
}

/// The library's reader of a header.
fn lfsck_link_read(link: &[u8], fields: &mut [u64; call::LINK_HEADER]) -> u32 {
    lfsck_sys::link_read(link, fields)
}

/// The library's reader of a record.
fn lfsck_link_record(link: &[u8], place: u64, out: &mut [u64; call::LINK_READ]) -> u32 {
    lfsck_sys::link_record(link, place, out)
}

/// Times the writing of a linkEA, which must not be refused.
fn write(given: &Names, call: WriteCall) -> Timed<Vec<u8>> {
    let total = given.fields[1];
    let (mut bytes, mut length) = (vec![0; total as usize], 0);
    let (fields, records, names) = (&given.fields, &given.records, &given.names);
    let Timed { result, took } = timed(|| call(fields, records, names, &mut bytes, &mut length));
    assert_eq!((result, length), (0, total));
    Timed {
        result: bytes,
        took,
    }
}

/// Times the reading of a header.
fn read(
    link: &[u8],
    call: fn(&[u8], &mut [u64; call::LINK_HEADER]) -> u32,
) -> Timed<[u64; call::LINK_HEADER]> {
    let mut fields = [0; call::LINK_HEADER];
    let Timed { result, took } = timed(|| call(link, &mut fields));
    assert_eq!((result, fields[0]), (0, RECORDS as u64));
    Timed {
        result: fields,
        took,
    }
}

/// Times a walk from the first record to the end.
fn walk(
    link: &[u8],
    call: fn(&[u8], u64, &mut [u64; call::LINK_READ]) -> u32,
) -> Timed<Vec<[u64; call::LINK_READ]>> {
    timed(|| {
        let mut records = Vec::new();
        let mut place = link::HEADER as u64;
        while place < link.len() as u64 {
            let mut record = [0; call::LINK_READ];
            assert_eq!(call(link, place, &mut record), 0);
            place = record[5];
            records.push(record);
        }
        assert_eq!(records.len(), WALKED);
        records
    })
}

/// A namespace at full size: judged, its findings told, and a whole pass.
fn measure_names(rounds: usize) {
    let names = Namespace::of(CHILDREN, MOST_LEVELS);
    let times = side_by_side(
        rounds,
        || judge(&names, lfsck_names_judge),
        || judge(&names, plain::names_judge),
    );
    print_names("judged", times);
    let times = side_by_side(
        rounds,
        || find(&names, lfsck_sys::names_find),
        || find(&names, plain::names_find),
    );
    print_names("findings told", times);
    let times = side_by_side(
        rounds,
        || pass(&names, lfsck_names_pass),
        || pass(&names, plain::names_pass),
    );
    print_names("pass", times);
}

fn print_names(what: &str, times: Times) {
    let (rows, chain) = (grouped(CHILDREN), grouped(MOST_LEVELS));
    let what = format!("namespace, {what}: {rows} entries and children, chains of {chain}");
    print_line(&what, times, "");
}

/// Marks by either side.
type JudgeCall = fn(&[u8], &[u8], &mut [u64]) -> u32;

/// The library's judging, with its working room.
fn lfsck_names_judge(entries: &[u8], children: &[u8], marks: &mut [u64]) -> u32 {
    let (mut index, mut room) = (working(), working());
    lfsck_sys::names_judge(entries, children, &mut index, &mut room, marks)
}

/// Working room for both tables.
fn working() -> Vec<u8> {
    vec![0; WORKING * 2 * CHILDREN]
}

/// Times the judging, of which every climb must have an end.
fn judge(names: &Namespace, call: JudgeCall) -> Timed<Vec<u64>> {
    let mut marks = vec![9; CHILDREN];
    let Timed { result, took } = timed(|| call(&names.entries, &names.children, &mut marks));
    assert_eq!(result, 0);
    Timed {
        result: marks,
        took,
    }
}

/// Times the findings.
fn find(names: &Namespace, call: JudgeCall) -> Timed<Vec<u64>> {
    let mut out = vec![9; call::FINDING * CHILDREN];
    let Timed { result, took } = timed(|| call(&names.entries, &names.children, &mut out));
    assert_eq!(result, 0);
    Timed { result: out, took }
}

/// A pass by either side.
type PassCall = fn(&mut [u8], &mut [u8], &mut [u64], &mut [u64; call::MENDED]) -> u32;

/// The library's pass, with its working room.
fn lfsck_names_pass(
    entries: &mut [u8],
    children: &mut [u8],
    marks: &mut [u64],
    report: &mut [u64; call::MENDED],
) -> u32 {
    let (mut index, mut room) = (working(), working());
    lfsck_sys::names_pass(entries, children, &mut index, &mut room, marks, report)
}

/// Times a pass, which must do what there is to be done: the tables afterwards.
fn pass(names: &Namespace, call: PassCall) -> Timed<Namespace> {
    let mut after = names.clone();
    let (mut marks, mut report) = (vec![9; CHILDREN], [9; call::MENDED]);
    let Namespace { entries, children } = &mut after;
    let Timed { result, took } = timed(|| call(entries, children, &mut marks, &mut report));
    assert_eq!((result, report[4]), (0, CHILDREN as u64));
    assert_eq!(report[..4], Namespace::done(CHILDREN));
    Timed {
        result: after,
        took,
    }
}

/// A dump of 1 GB, made piece by piece as it is taken in.
fn measure_intake(shape: dump::Shape, rounds: usize) {
    let dump = Dump::of(shape, DUMP);
    let [files, objects] = dump.entries();
    let owners = dump.owners();
    let library = || {
        let mut state = vec![0; STATE];
        take_in(shape, |piece, files, objects| {
            lfsck_sys::intake_feed(&mut state, piece, &owners, files, objects, &mut [0])
        })
    };
    let plain = || {
        let mut state = plain::IntakeState::new();
        take_in(shape, |piece, files, objects| {
            plain::intake_feed(&mut state, piece, &owners, files, objects, &mut 0)
        })
    };
    let times = side_by_side(rounds, library, plain);
    let [files, objects, slots] = [files, objects, shape.slots].map(grouped);
    let what = format!("intake of 1 GB: {files} files of {slots} slots, {objects} objects");
    print_line(&what, times, "");
}

/// Times a reading of the dump, piece by piece, without the making of the pieces. After each piece
/// the rows that it filled are counted and are unused again, so the memory is the same at all times.
/// The result is what was filled: rows of both tables, and the sum of their bytes; the bytes that
/// both tables have in the end are added to it.
fn take_in(
    shape: dump::Shape,
    mut feed: impl FnMut(&[u8], &mut [u8], &mut [u8]) -> u32,
) -> Timed<[u64; 3]> {
    let mut dump = Dump::of(shape, DUMP);
    let mut piece = vec![0; MOST_PIECE];
    let mut files = vec![0; LENT_FILES * parent::BYTES];
    let mut objects = vec![0; LENT_OBJECTS * object::BYTES];
    let file = parent::LAYOUT_AT + shape.layout();
    let (mut result, mut took) = ([0; 3], Duration::ZERO);
    loop {
        let length = dump.next(&mut piece);
        if length == 0 {
            break;
        }
        let fed = timed(|| feed(&piece[..length], &mut files, &mut objects));
        assert_eq!(fed.result, 0);
        took += fed.took;
        result[0] += empty(&mut files, parent::BYTES, file, &mut result[2]);
        result[1] += empty(&mut objects, object::BYTES, object::BYTES, &mut result[2]);
    }
    let entries = dump.entries().map(|count| count as u64);
    assert_eq!(result[..2], entries);
    result[2] += sum(&files) + sum(&objects);
    Timed { result, took }
}

/// Makes the filled rows of a table unused; how many they were. The bytes that an entry fills of a
/// row are added to the sum.
fn empty(table: &mut [u8], size: usize, filled: usize, all: &mut u64) -> u64 {
    let rows = table.chunks_mut(size).take_while(|row| row[0] == 1);
    let mut count = 0;
    for row in rows {
        *all += sum(&row[..filled]);
        row[0] = 0;
        count += 1;
    }
    count
}

fn sum(bytes: &[u8]) -> u64 {
    bytes.iter().map(|&byte| u64::from(byte)).sum()
}

fn print_line(what: &str, times: Times, growth: &str) {
    let ratio = times.ratio();
    let mark = if ratio > MOST_RATIO { ", over 1.3" } else { "" };
    println!(
        "| {what} | {:.3} s | {:.3} s | {ratio:.2}{mark} |{growth} |",
        times.library.as_secs_f64(),
        times.plain.as_secs_f64()
    );
    let _ = std::io::stdout().flush();
}

/// How many times as long the library and plain Rust take.
fn growth(before: Times, after: Times) -> String {
    let factor = |from: Duration, to: Duration| to.as_secs_f64() / from.as_secs_f64();
    format!(
        " times {:.2}, times {:.2}",
        factor(before.library, after.library),
        factor(before.plain, after.plain)
    )
}

/// What tables of a shape have.
fn told(shape: Shape) -> String {
    let numbers = [shape.count(), shape.file_slots, shape.objects].map(grouped);
    let [files, slots, objects] = numbers;
    format!("{files} files of {slots} slots, {objects} objects")
}

/// A number with a comma before each three digits.
fn grouped(number: usize) -> String {
    let digits = number.to_string();
    let from_end = digits
        .char_indices()
        .map(|(at, digit)| (digits.len() - at, digit));
    from_end.fold(String::new(), |text, (left, digit)| {
        let comma = if !text.is_empty() && left % 3 == 0 {
            ","
        } else {
            ""
        };
        format!("{text}{comma}{digit}")
    })
}
