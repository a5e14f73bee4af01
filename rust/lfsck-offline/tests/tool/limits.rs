//! Cases at the limits of document 01.

use std::process::{Child, Stdio};
use std::time::{Duration, Instant};

use reference::names::{Namespace, ROOT};

use crate::bytes::{PARENT, object, object_row, parent_row};
use crate::json::{Value, parse};
use crate::namespace::{ENTRIES, bare, case_of, entry, fid, pass};
use crate::tool::{Case, Told};

const PARENTS: usize = 1024;
/// The most slots of a file.
const SLOTS: usize = 2000;
const OBJECTS: usize = 65_536;
/// The most rows of either table of names.
const ROWS: usize = 65_536;
/// Files with all their slots named; the others have holes.
const NAMED: usize = 32;

fn id(row: usize, slot: usize) -> u32 {
    (1 + SLOTS * row + slot) as u32
}

/// Files of so many slots, so many of them with all slots named; every object is where it
/// belongs.
pub fn clean(files: usize, slots: usize, named: usize) -> (Vec<u8>, Vec<u8>) {
    let (mut parents, mut objects) = (Vec::new(), Vec::new());
    let id = |row: usize, slot: usize| (1 + slots * row + slot) as u32;
    for row in 0..files {
        let name = |slot| if row < named { id(row, slot) } else { 0 };
        let names: Vec<u32> = (0..slots).map(name).collect();
        parents.extend(parent_row(1 + row as u32, &names));
        for slot in 0..if row < named { slots } else { 0 } {
            objects.extend(object_row(id(row, slot), (1 + row as u32, slot as u32)));
        }
    }
    (parents, objects)
}

/// Full tables with a few faults in the first files.
fn full() -> (Vec<u8>, Vec<u8>) {
    let (mut parents, mut objects) = clean(PARENTS, SLOTS, NAMED);
    // A slot that names another file's object, and one whose object is absent.
    name(&mut parents, 2, 7, id(1, 7));
    name(&mut parents, 3, 5, 900_000);
    // The own id in the layout of file 5.
    parents[4 * PARENT + 27 + 8] ^= 0x40;
    // The claim of one object and the owner of another.
    objects[6 * SLOTS * 46 + 41] = 9;
    objects[(7 * SLOTS + 1) * 46 + 21] ^= 1;
    objects.resize(OBJECTS * 46, 0);
    (parents, objects)
}

/// Lets a slot name another object.
fn name(parents: &mut [u8], row: usize, slot: usize, id: u32) {
    let at = PARENT * row + 27 + 32 + 24 * slot;
    parents[at..at + 16].copy_from_slice(&object(id).to_bytes());
}

fn reserve() -> Vec<u8> {
    let fids = (0..65_536).map(|number| object(1_000_000 + number));
    fids.flat_map(|fid| fid.to_bytes()).collect()
}

#[test]
fn full_tables_are_checked_classed_and_repaired() {
    let started = Instant::now();
    let time = |what: &str| println!("{what}: {:.1} s", started.elapsed().as_secs_f64());
    let (parents, objects) = full();
    let case = Case::with("full", &parents, &objects, &reserve());

    let sound = case.json(&["check"], 0);
    assert_eq!(sound.number("parent_rows"), 1024);
    assert_eq!(sound.number("object_rows"), 65_536);
    assert_eq!(sound.number("reserve_fids"), 65_536);
    time("check");
    let classes = case.json(&["classes"], 0);
    let summary = classes.get("summary");
    let faults = ["SELF", "MULTIPLE", "DANGLING", "UNMATCHED", "OWNER"];
    for class in faults {
        assert_eq!(summary.number(class), 1, "{class}");
    }
    assert_eq!(summary.number("HOLE"), ((PARENTS - NAMED) * SLOTS) as u64);
    // The two objects whose slots name others claim places that are taken.
    assert_eq!(summary.number("CONFLICT"), 2);
    assert_eq!(summary.number("UNUSED"), (OBJECTS - NAMED * SLOTS) as u64);
    expect_compared(&case, classes.get("compared"));
    time("classes and show");
    expect_writes(&case);
    time("writes");

    // The faults are in the first eight files.
    let steps = (8 * (1 + SLOTS)).to_string();
    let run = ["run", "--create", "--steps", &steps, "--json"];
    let told = start_alone(&case, &run).wait_with_output().unwrap();
    let told = Told::from(told).expect(1);
    assert_eq!(told.err, "", "no bar in a pipe");
    let report = parse(&told.out);
    for class in faults {
        assert_eq!(report.get("repairs").number(class), 1, "{class}");
    }
    let left = (PARENTS - 8) * (1 + SLOTS) + OBJECTS;
    assert_eq!(report.number("steps_left"), left as u64);
    time("run");
}

/// The object that is absent, of slot 5 of the fourth file, is made in the row behind all objects.
fn expect_writes(case: &Case) {
    let shown = case.json(&["show", "0x200000401:4", "--writes"], 0);
    let writes = shown.get("file").list("positions")[6].list("writes");
    assert_eq!(writes.len(), 1);
    assert_eq!(writes[0].number("row"), (NAMED * SLOTS) as u64);
}

/// One slot is compared for each, but 6,006 for the absent object, which slot 5 of the fourth file
/// names, and 2 for the object of the seventh file that claims another slot of it.
fn expect_compared(case: &Case, compared: &Value) {
    let (slots, absent) = ((NAMED * SLOTS) as u64, (3 * SLOTS + 6) as u64);
    let told = ["slots", "sum", "greatest"].map(|name| compared.number(name));
    assert_eq!(told, [slots, slots - 2 + absent + 2, absent]);
    let shown = case.json(&["show", "0x200000401:4"], 0);
    let positions = &shown.get("file").list("positions")[1..];
    let told: Vec<u64> = positions.iter().map(|it| it.number("compared")).collect();
    let expected = (0..SLOTS).map(|slot| if slot == 5 { absent } else { 1 });
    assert_eq!(told, expected.collect::<Vec<u64>>());
}

/// Starts a command that keeps the case long enough to see that nobody else gets it meanwhile.
fn start_alone(case: &Case, words: &[&str]) -> Child {
    for attempt in 1..=6 {
        let mut command = case.command(words);
        let command = command.stdout(Stdio::piped()).stderr(Stdio::piped());
        let mut child = command.spawn().expect("the tool");
        std::thread::sleep(Duration::from_millis(50 * attempt));
        let second = case.run(&["show", "1:1"]);
        if second.status == Some(74) {
            second.expect_line(74, "another process has this case open");
            return child;
        }
        // The second was the first to open the case.
        child.wait().expect("the tool");
    }
    panic!("a command never has the case for itself");
}

#[test]
fn no_rows_are_a_case() {
    let case = Case::with("no-rows", b"", b"", b"");
    assert_eq!(case.json(&["check"], 0).number("parent_rows"), 0);
    let told = case.run(&["classes"]).expect(0);
    assert!(told.out.starts_with("Nothing to report"), "{told:?}");
    let report = case.json(&["run", "--create", "--adopt"], 0);
    assert_eq!(report.number("stage"), 3);
    assert_eq!(report.number("steps_done"), 0);
    case.run(&["show", "0x200000401:1"])
        .expect_line(2, "nothing in");
}

/// E10: a file of 2,000 slots is made, and none of 2,001.
#[test]
fn a_made_file_has_2000_slots_at_most() {
    for (index, answer) in [
        (160, "ORPHAN"),
        (1999, "ORPHAN"),
        (2000, "CONFLICT"),
        (u32::MAX, "CONFLICT"),
    ] {
        let objects = object_row(0x30, (9, index));
        let case = Case::with("index", &[0; PARENT], &objects, &[]);
        let before = case.files();
        let classes = case.json(&["classes"], 0);
        assert_eq!(classes.list("findings")[0].text("class"), answer, "{index}");
        let report = case.json(&["run", "--adopt"], 0);
        let made = u64::from(answer == "ORPHAN");
        assert_eq!(report.get("repairs").number("ORPHAN"), made);
        let shown = case.json(&["show", "0x200000401:9"], 0);
        if made == 1 {
            assert_eq!(shown.get("file").number("slots"), u64::from(index) + 1);
        } else {
            assert_eq!(shown.get("file"), &Value::Null);
            assert_eq!(case.read("parents.tbl"), before["parents.tbl"]);
            assert_eq!(case.read("objects.tbl"), before["objects.tbl"]);
        }
    }
}

/// The least and the greatest of each field is good, and one beyond is named.
#[test]
fn the_bounds_of_fields_are_held_to() {
    let fid = |sequence: u64, id: u32, version: u32| {
        [
            &sequence.to_le_bytes()[..],
            &id.to_le_bytes(),
            &version.to_le_bytes(),
        ]
        .concat()
    };
    for (fid, good) in [
        (fid(0x2_0000_0400, 1, 0), true),
        (fid(u64::MAX - 1, u32::MAX, 0), true),
        (fid(0x2_0000_03ff, 1, 0), false),
        (fid(u64::MAX, 1, 0), false),
        (fid(0x2_0000_0400, 0, 0), false),
        (fid(0x2_0000_0400, 1, 1), false),
    ] {
        let case = Case::with("reserve-bounds", b"", b"", &fid);
        let told = case.json(&["check"], if good { 0 } else { 2 });
        assert_eq!(told.number("answer"), if good { 0 } else { 14 });
        assert_eq!(told.list("faults").is_empty(), good);
    }
    for (ost, answer) in [(65_535_u32, 0), (65_536, 14)] {
        let mut object = object_row(1, (1, 0));
        object[17..21].copy_from_slice(&ost.to_le_bytes());
        let case = Case::with("ost-bounds", b"", &object, b"");
        let status = if answer == 0 { 0 } else { 2 };
        assert_eq!(case.json(&["check"], status).number("answer"), answer);
    }
    for (slots, answer) in [(2000, 0), (2001, 13)] {
        let mut parent = parent_row(1, &[0; 2000]);
        parent[27 + 28..27 + 30].copy_from_slice(&(slots as u16).to_le_bytes());
        let case = Case::with("slot-bounds", &parent, b"", b"");
        let status = if answer == 0 { 0 } else { 2 };
        assert_eq!(case.json(&["check"], status).number("answer"), answer);
    }
}

#[test]
fn one_row_more_is_too_many() {
    for (name, parents, objects, reserve) in [
        ("1025", 1025, 0, 0),
        ("65537", 0, 65_537, 0),
        ("65537-reserve", 0, 0, 65_537),
    ] {
        let case = Case::with(
            name,
            &vec![0; parents * PARENT],
            &vec![0; objects * 46],
            &object(1).to_bytes().repeat(reserve),
        );
        let json = case.json(&["check"], 2);
        assert_eq!(json.number("answer"), 11);
        case.run(&["run"]).expect_line(2, "refused with 11");
    }
}

/// As many directories, each in the one before it and the first in ROOT, as a climb may have
/// levels, and files in them; every second FID-in-dirent and all linkEAs are missing.
fn full_names() -> Namespace {
    let directories = 4_096;
    let above = |row: usize| match row {
        0 => ROOT,
        row if row < directories => fid(row as u32),
        row => fid(1 + (row % directories) as u32),
    };
    let own = |row: usize| Some(fid(1 + row as u32));
    let up = |row: usize| (row < directories).then(|| above(row));
    let name = |row: usize| format!("name {row}").into_bytes();
    let dirent = |row: usize| own(row).filter(|_| row.is_multiple_of(2));
    Namespace {
        entries: (0..ROWS)
            .map(|row| entry(above(row), row, dirent(row), &name(row)))
            .collect(),
        children: (0..ROWS).map(|row| bare(own(row), up(row))).collect(),
    }
}

#[test]
fn full_tables_of_names_are_checked_listed_and_mended() {
    let started = Instant::now();
    let time = |what: &str| println!("{what}: {:.1} s", started.elapsed().as_secs_f64());
    let case = case_of("full-names", &full_names());
    let sound = case.json(&["check"], 0);
    assert_eq!(sound.get("names").number("entry_rows"), ROWS as u64);
    assert_eq!(sound.get("names").number("child_rows"), ROWS as u64);
    time("check of names");
    let summary = case.json(&["names", "--summary"], 0);
    let summary = summary.get("summary");
    assert_eq!(summary.get("link").number("missing record"), ROWS as u64);
    assert_eq!(summary.number("hidden"), 0);
    let passed = pass(&case.files());
    let report = case.json(&["names", "--mend", "--summary"], 0);
    assert_eq!(report.number("fids_written"), ROWS as u64 / 2);
    assert_eq!(report.number("records_appended"), ROWS as u64);
    passed.expect_in(&case);
    time("mending of names");
    // A row more is one too many.
    case.edit(ENTRIES, |bytes| bytes.extend([0; 293]));
    case.run(&["names"]).expect_line(2, "refused with 11");
}
