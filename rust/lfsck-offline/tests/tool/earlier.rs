//! Cases that versions of earlier editions left: rows of those before 2026-07 are narrow and refused,
//! positions are refused, and logs are read.

use crate::bytes::{PARENT, object_row, parent_row};
use crate::json::Value;
use crate::oracle;
use crate::tool::{Case, Files, JOURNAL, LOG, POSITION, sha256};

/// The bytes of a parent row of the editions before 2026-07.
pub const NARROW: usize = 3915;

/// Where an object row has the OST index, and a parent row its layout's own id.
const OST: usize = 17;
const OWN_ID: usize = 27 + 8;

/// What an entry of this version says of WRONG-OST where none was mended, and of its version; and
/// what one of the first version says of its own.
const COUNT: &str = ",\"WRONG-OST\":0";
const VERSION: &str = concat!("\"version\":\"", env!("CARGO_PKG_VERSION"), "\"");
const FIRST: &str = "\"version\":\"0.1.0\"";

/// What a run of this version says that used no object again, and no earlier one says.
pub const REUSED: &str = ",\"reused\":[]";

/// The versions of those editions, with the formats of their positions.
const VERSIONS: [(&str, &str); 6] = [
    ("0.1.0", "1"),
    ("0.2.0", "2"),
    ("0.3.0", "2"),
    ("0.4.0", "2"),
    ("0.5.0", "3"),
    ("0.6.0", "3"),
];

/// The formats of other editions, and how the line names what saved them.
const FORMATS: [(&str, &str); 7] = [
    ("1", "an edition before 2026-07, with at most 160 slots"),
    ("2", "an edition before 2026-07, with at most 160 slots"),
    ("3", "an edition before 2026-07, with at most 160 slots"),
    ("4\nedition 2026-06", "edition 2026-06"),
    ("4\nedition 2026-07", "edition 2026-07"),
    ("4\nedition 2026-08", "edition 2026-08"),
    ("4\nedition the one after", "edition the one after"),
];

const RUN: [&str; 3] = ["run", "--create", "--adopt"];

/// The end, under no policy.
const AT_END: &str = "position 3 0 0\npolicy 0\n";

/// A position file of these tables, saved in a format, at a place under a policy.
pub fn position(format: &str, at: &str, files: &Files) -> String {
    let digest = |name: &str| sha256(&files[name]);
    let text = format!(
        "lfsck-offline position, format {format}\n{at}parents {}\nobjects {}\nreserve {}\n",
        digest("parents.tbl"),
        digest("objects.tbl"),
        digest("reserve.tbl")
    );
    format!("{text}digest {}\n", sha256(text.as_bytes()))
}

/// A parent table with the rows of those editions.
pub fn narrowed(parents: &[u8]) -> Vec<u8> {
    let rows = parents.chunks(PARENT);
    rows.flat_map(|row| row[..NARROW].to_vec()).collect()
}

/// A part of a log behind the name of the parent table, with the two whole rows of those editions
/// in place of the next ones.
fn padded(part: &str) -> String {
    let mut part = part.to_string();
    for name in ["\"old\":\"", "\"new\":\""] {
        let start = part.find(name).expect("a row") + name.len();
        let digits = part[start..].find('"').expect("its end");
        part.insert_str(start + digits, &"0".repeat(2 * NARROW - digits));
    }
    part
}

/// The log as a version of those editions wrote it, of these parent tables.
fn earlier_log(log: &str, version: &str, tables: [&[u8]; 2]) -> String {
    let mark = "\"table\":\"parents.tbl\"";
    let mut parts = log.split(mark);
    let first = parts.next().expect("a beginning").to_string();
    let log = parts.fold(first, |log, part| log + mark + &padded(part));
    assert_eq!(log.matches(REUSED).count(), 1);
    let log = log.replace(REUSED, "");
    let log = log.replace(VERSION, &format!("\"version\":\"{version}\""));
    tables.iter().fold(log, |log, table| {
        log.replace(&sha256(table), &sha256(&narrowed(table)))
    })
}

/// The sample after 4 steps of a run of a version, which mended the own id of a file.
fn left(name: &str, (version, format): (&str, &str)) -> Case {
    let case = Case::sample(name);
    let start = case.read("parents.tbl");
    case.run(&[&RUN[..], &["--steps", "4"]].concat()).expect(1);
    let parents = case.read("parents.tbl");
    let log = String::from_utf8(case.read(LOG)).expect("a text");
    let mut log = earlier_log(&log, version, [&start, &parents]);
    if version == "0.1.0" {
        assert_eq!(log.matches(COUNT).count(), 1);
        log = log.replace(COUNT, "");
    }
    case.write(LOG, log.as_bytes());
    case.write("parents.tbl", &narrowed(&parents));
    let at = "position 1 1 1\npolicy 3\n";
    let position = position(format, at, &case.files());
    case.write(POSITION, position.as_bytes());
    case
}

/// The line about the rows.
const ROWS: &str = "refused with 11: parents.tbl, length: the rows have 3915 bytes, those of an \
                    edition with at most 160 slots; lfsck-offline convert DIR widens them to 48075 \
                    bytes (11)\n";

/// Every command that reads the tables for what they say.
#[test]
fn narrow_rows_are_refused_with_11() {
    let case = left("earlier-rows", ("0.6.0", "3"));
    let before = case.files();
    for words in [
        &["classes"][..],
        &["classes", "--summary"],
        &["classes", "--file", "0x200000401:1", "--exit-code"],
        &["show", "0x200000401:1"],
        &["run"],
        &RUN,
        &["run", "--dry-run"],
        &["run", "--from-start"],
        &["run", "--from-start", "--dry-run", "--summary"],
        &["run", "--steps", "0"],
        &["undo"],
    ] {
        let told = case.run(words).expect_line(2, "the tables are refused");
        assert!(told.err.ends_with(ROWS), "{told:?}");
        let report = case.json(words, 2);
        assert_eq!(report.number("answer"), 11, "{words:?}");
        assert!(report.text("error").contains("convert DIR"), "{words:?}");
    }
    assert_eq!(case.files(), before);
}

/// The check tells it in its own form, and no fault of rows that aren't there: a few of these rows
/// are less than one of this edition, and many are some.
#[test]
fn a_check_says_what_the_rows_are() {
    let case = left("earlier-check", ("0.6.0", "3"));
    for count in [12, 13, 1024] {
        let rows = case.read("parents.tbl")[..NARROW].repeat(count);
        case.write("parents.tbl", &rows);
        let told = case.run(&["check"]).expect(2).out;
        let lines = "The tables are not sound: 11, table not whole rows, too long, or a mark not 0 \
                     or 1.\n  parents.tbl, length: the rows have 3915 bytes, those of an edition \
                     with at most 160 slots; lfsck-offline convert DIR widens them to 48075 bytes \
                     (11)\nThe names are sound";
        assert!(told.starts_with(lines), "{told}");
        let report = case.json(&["check"], 2);
        assert_eq!(report.number("answer"), 11);
        assert_eq!(report.number("parent_rows"), count as u64);
        assert_eq!(report.list("faults").len(), 1);
        assert_eq!(report.list("faults")[0].get("row"), &Value::Null);
        // What else is at fault is told beside it.
        case.edit("objects.tbl", |bytes| bytes[0] = 7);
        assert_eq!(case.json(&["check"], 2).list("faults").len(), 2);
        case.edit("objects.tbl", |bytes| bytes[0] = 1);
    }
}

/// A length that is of no edition is told as it was.
#[test]
fn rows_of_no_edition_are_not_taken_for_narrow_ones() {
    for (length, rest) in [
        (
            NARROW - 1,
            "3914 bytes after the last whole row of 48075 bytes",
        ),
        (
            NARROW + 1,
            "3916 bytes after the last whole row of 48075 bytes",
        ),
        (
            1025 * NARROW,
            "22650 bytes after the last whole row of 48075 bytes",
        ),
        (
            PARENT + NARROW,
            "3915 bytes after the last whole row of 48075 bytes",
        ),
    ] {
        let case = Case::with("no-edition", &vec![0; length], b"", b"");
        let told = case.run(&["run"]).expect_line(2, "refused with 11");
        assert!(told.err.contains(rest), "{told:?}");
    }
}

/// Names have their own tables, and need no conversion.
#[test]
fn names_beside_narrow_rows_are_mended() {
    let case = left("earlier-names", ("0.6.0", "3"));
    let other = Case::sample("earlier-names-wide");
    let told = case.run(&["names"]).expect(0);
    assert_eq!(told.out, other.run(&["names"]).expect(0).out);
    case.run(&["names", "--mend"]).expect(0);
    other.run(&["names", "--mend"]).expect(0);
    for table in ["entries.tbl", "children.tbl"] {
        assert_eq!(case.read(table), other.read(table));
    }
    case.run(&["undo"]).expect(0);
    assert_eq!(case.json(&["log"], 0).list("entries").len(), 3);
}

/// The log of each version is read as it is: all of it, and the story of a file.
#[test]
fn the_logs_of_all_versions_are_read() {
    for version in VERSIONS {
        let case = left("earlier-logs", version);
        let log = String::from_utf8(case.read(LOG)).expect("a text");
        let whole = log.split("\"new\":\"").nth(1).expect("a row");
        assert_eq!(whole.find('"'), Some(2 * NARROW), "whole rows");
        let told = case.run(&["log"]).expect(0).out;
        let title = format!(
            "  run, lfsck-offline {}, policy: create and adopt\n",
            version.0
        );
        let lines = "  From position 1,0,0 to 1,1,1 in 4 steps. Answer 1: steps used up, end not \
                     reached.\n  Repairs: SELF 1.\n";
        assert!(told.contains(&(title + lines)), "{told}");
        let told = case.run(&["log", "0x200000401:2"]).expect(0).out;
        assert!(told.contains("SELF"), "{told}");
        let entries = case.json(&["log"], 0);
        let entry = &entries.list("entries")[0];
        assert_eq!(entry.text("version"), version.0);
        assert_eq!(entry.get("repairs").number("WRONG-OST"), 0);
        assert_eq!(entry.list("changes").len(), 1);
        let story = case.json(&["log", "0x200000401:2"], 0);
        assert_eq!(story.list("story").len(), 1);
    }
}

/// The sample with a position of another edition in place of that of a begun run.
fn begun(name: &str, format: &str) -> Case {
    let case = Case::sample(name);
    case.run(&[&RUN[..], &["--steps", "10"]].concat()).expect(1);
    let text = String::from_utf8(case.read(POSITION)).expect("a text");
    let (first, rest) = text.split_once("position 1").expect("a position");
    assert_eq!(first, "lfsck-offline position, format 4\nedition 2026-09\n");
    let (at, _) = rest.split_once("parents ").expect("a digest");
    let at = format!("position 1{at}");
    case.write(POSITION, position(format, &at, &case.files()).as_bytes());
    case
}

/// No run is taken up across editions: not with the policy and the tables of the position, nor with
/// others, nor where nothing is written.
#[test]
fn a_position_of_another_edition_is_refused() {
    for (format, edition) in FORMATS {
        let case = begun("other-edition", format);
        let before = case.files();
        let line = format!(
            "lfsck-offline.position: saved by {edition}; this is edition 2026-09, and no run is \
             taken up across editions; --from-start begins without it\n"
        );
        for words in [
            &RUN[..],
            &["run"],
            &["run", "--create", "--adopt", "--dry-run"],
            &["run", "--create", "--adopt", "--steps", "1"],
            &["run", "--create", "--adopt", "--steps", "0"],
            &["run", "--create", "--adopt", "--summary"],
        ] {
            let told = case.run(words).expect_line(2, "saved by ");
            assert!(told.err.ends_with(&line), "{told:?}");
            let report = case.json(words, 2);
            assert!(line.contains(report.text("error").rsplit('/').next().unwrap()));
            assert_eq!(report.get("answer"), &Value::Null);
        }
        assert_eq!(case.files(), before);
        // The other commands do without the position.
        for words in [&["check"][..], &["classes"], &["show", "0x200000401:1"]] {
            case.run(words).expect(0);
        }
        assert_eq!(case.files(), before);
    }
}

/// From the start it is the uncut run, and its own position counts; taken back, the other one is
/// there again as it was, and still refused.
#[test]
fn a_run_from_the_start_leaves_it_aside() {
    for (format, _) in FORMATS {
        let case = begun("from-start", format);
        let start = case.files();
        let from_start = [&RUN[..], &["--from-start"]].concat();
        let dry = [&from_start[..], &["--dry-run"]].concat();
        let told = case.run(&dry).expect(0).out;
        assert!(told.starts_with("The run begins at the start, as asked.\n"));
        assert_eq!(case.files(), start);
        case.run(&from_start).expect(0);
        oracle::run(&start, 3, u64::MAX).expect_in(&case);
        let told = case.run(&RUN).expect(0).out;
        assert!(told.starts_with("The run goes on from the saved position.\n"));
        let told = case.json(&["log"], 0);
        let saved = told.list("entries")[1].text("saved").to_string();
        assert_eq!(saved.as_bytes(), start[POSITION]);
        case.run(&["undo"]).expect(0);
        let mut after = case.files();
        after.insert(LOG.to_string(), start[LOG].clone());
        assert_eq!(after, start);
        case.run(&RUN).expect_line(2, "no run is taken up");
    }
}

/// A journal that puts a position in place where there is none.
fn journal(position: &str) -> Vec<u8> {
    let length = position.len();
    let text = format!(
        "lfsck-offline journal, format 2\nput {POSITION} {length} nothing 0\n{position}end\n"
    );
    let digest = sha256(text.as_bytes());
    let digits = digest.as_bytes().chunks(2);
    let byte = |two: &[u8]| u8::from_str_radix(str::from_utf8(two).unwrap(), 16).unwrap();
    text.bytes().chain(digits.map(byte)).collect()
}

/// What an earlier version had begun to save is completed, whichever command comes next.
#[test]
fn a_save_of_an_earlier_version_is_completed() {
    for version in VERSIONS {
        let case = left("earlier-journal", version);
        let whole = case.files();
        let position = String::from_utf8(case.read(POSITION)).expect("a text");
        for words in [&["check"][..], &["log"], &["run"], &["convert"]] {
            case.restore(&whole);
            std::fs::remove_file(case.path().join(POSITION)).expect("the position");
            case.write(JOURNAL, &journal(&position));
            let told = case.run(words);
            assert!(told.err.contains("completed a save that was cut off\n"));
            if words == ["convert"] {
                assert!(told.out.contains("is thrown away"), "{told:?}");
                assert!(!case.files().contains_key(POSITION));
            } else {
                assert_eq!(case.files(), whole, "{words:?}");
            }
        }
    }
}

/// A file whose own id was wrong, mended by a run of the first version.
fn mended_first(name: &str) -> Case {
    let mut parent = parent_row(1, &[0x10]);
    parent[OWN_ID] = 9;
    let mut object = object_row(0x10, (1, 0));
    object[OST] = 5;
    let case = Case::with(name, &parent, &object, &[]);
    case.run(&["run", "--steps", "1"]).expect(1);
    let log = String::from_utf8(case.read(LOG)).expect("a text");
    for part in [COUNT, VERSION, REUSED] {
        assert_eq!(log.matches(part).count(), 1);
    }
    let log = log.replace(COUNT, "").replace(REUSED, "");
    let log = log.replace(VERSION, FIRST);
    case.write(LOG, log.as_bytes());
    case
}

/// Only that one count may be missing, in an entry of that version alone, and where it stands it
/// is a number.
#[test]
fn a_log_without_another_count_is_refused() {
    let case = mended_first("earlier-spoilt");
    let log = String::from_utf8(case.read(LOG)).expect("a text");
    for spoilt in [
        log.replace(",\"ORPHAN\":0", ""),
        log.replace(",\"ORPHAN\":0", ",\"ORPHAN\":0,\"WRONG-OST\":null"),
        log.replace("\"SELF\":1,", ""),
        log.replace(FIRST, VERSION),
    ] {
        assert_ne!(spoilt, log);
        case.write(LOG, spoilt.as_bytes());
        for words in [&["log"][..], &["undo"]] {
            case.run(words)
                .expect_line(2, "line 1 is no entry of the log");
        }
    }
}

/// A format that this version doesn't know is refused, whatever else stands there, and so is a
/// fourth one without a plain name.
#[test]
fn a_later_format_is_refused() {
    let case = mended_first("later-format");
    for format in ["5", "4", "4\nedition ", "4\nedition a\u{e9}"] {
        case.write(POSITION, position(format, AT_END, &case.files()).as_bytes());
        let before = case.files();
        case.run(&["run"])
            .expect_line(2, "this is no saved position");
        assert_eq!(case.files(), before);
    }
}

/// A row that is longer than one of this edition is none.
#[test]
fn a_log_with_too_long_a_row_is_refused() {
    let case = mended_first("long-row");
    let log = String::from_utf8(case.read(LOG)).expect("a text");
    let row = log.split("\"new\":\"").nth(1).expect("a row");
    let row = &row[..row.find('"').expect("its end")];
    let whole = format!("{row}{}", "0".repeat(2 * PARENT - row.len()));
    case.write(LOG, log.replace(row, &whole).as_bytes());
    case.run(&["log"]).expect(0);
    case.write(LOG, log.replace(row, &(whole + "00")).as_bytes());
    case.run(&["log"])
        .expect_line(2, "line 1 is no entry of the log");
}
