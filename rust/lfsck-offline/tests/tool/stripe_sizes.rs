//! Files whose stripe size is 0 or no multiple of 65,536: refused with 13 by whoever reads them, and
//! taken back and told where an earlier edition made a run over them.

use crate::bytes::{PARENT, parent_row};
use crate::earlier::{NARROW, REUSED, narrowed, position};
use crate::intake::{FID, LMA, LOV, OWNERS, entry, on_made, take};
use crate::json::{Value, parse};
use crate::tool::{Case, LOG, POSITION, hex, sha256};

/// Where a parent row has the stripe size.
const SIZE_AT: usize = 27 + 24;

/// Bad sizes, with the reason.
const BAD: [(u32, &str); 5] = [
    (0, "a stripe of no bytes"),
    (1, "no multiple of 65,536"),
    (65_535, "no multiple of 65,536"),
    (65_537, "no multiple of 65,536"),
    (4_294_967_295, "no multiple of 65,536"),
];

/// Good ones, the smallest and the greatest among them.
const GOOD: [u32; 3] = [65_536, 131_072, 4_294_901_760];

const RUN: [&str; 3] = ["run", "--create", "--adopt"];

/// File 3 of the sample, which a run mends, and its row.
const THREE: &str = "0x200000401:3";
const ROW: usize = 2;

/// Puts a stripe size in a row.
fn put(parents: &mut [u8], row: usize, size: u32) {
    let at = row * PARENT + SIZE_AT;
    parents[at..at + 4].copy_from_slice(&size.to_le_bytes());
}

/// The sample with a stripe size in that row.
fn sample(name: &str, size: u32) -> Case {
    let case = Case::sample(name);
    case.edit("parents.tbl", |parents| put(parents, ROW, size));
    case
}

/// How the row is told.
fn line(row: usize, (size, reason): (u32, &str)) -> String {
    format!("parents.tbl row {row}, stripe size {size}: {reason} (13)")
}

/// Every command that reads the tables for what they say gives the same line, whichever file is
/// asked for, and writes nothing.
#[test]
fn a_bad_size_is_refused_with_13() {
    for bad in BAD {
        let case = sample("size-refused", bad.0);
        let before = case.files();
        let refusal = format!("the tables are refused with 13: {}\n", line(ROW, bad));
        for words in [
            &["classes"][..],
            &["classes", "--summary"],
            &["classes", "--file", THREE, "--exit-code"],
            &["show", THREE],
            &["show", "0x200000401:1"],
            &["show", "0x200000401:0x77"],
            &["run"],
            &RUN,
            &["run", "--dry-run"],
            &["run", "--steps", "0"],
            &["run", "--from-start", "--summary"],
        ] {
            let told = case.run(words).expect_line(2, "refused with 13");
            assert!(told.err.ends_with(&refusal), "{told:?}");
            assert_eq!(case.json(words, 2).number("answer"), 13, "{words:?}");
        }
        let told = case.run(&["check"]).expect(2).out;
        let lines = format!(
            "The tables are not sound: 13, layout against the rules.\n  {}\nThe names are sound",
            line(ROW, bad)
        );
        assert!(told.starts_with(&lines), "{told}");
        assert_eq!(case.files(), before);
    }
}

#[test]
fn a_check_tells_it_to_machines() {
    for (size, reason) in BAD {
        let case = sample("size-json", size);
        let told = case.json(&["check"], 2);
        assert_eq!(told.number("answer"), 13);
        let [fault] = told.list("faults") else {
            panic!("{told:?}");
        };
        let numbers = ["number", "row"].map(|name| fault.number(name));
        assert_eq!(numbers, [13, ROW as u64]);
        let texts = ["table", "field", "reason"].map(|name| fault.text(name));
        assert_eq!(
            texts,
            ["parents.tbl", &format!("stripe size {size}"), reason]
        );
    }
}

#[test]
fn a_good_size_is_accepted_and_shown() {
    for size in GOOD {
        let case = sample("size-good", size);
        case.run(&["check"]).expect(0);
        let told = case.run(&["show", THREE]).expect(0).out;
        assert!(told.contains(&format!(", stripe size {size}, ")), "{told}");
        let shown = case.json(&["show", THREE], 0);
        assert_eq!(shown.get("file").number("stripe_size"), size.into());
        case.run(&RUN).expect(0);
        let after = case.read("parents.tbl");
        let at = ROW * PARENT + SIZE_AT;
        assert_eq!(after[at..at + 4], size.to_le_bytes());
    }
}

/// A file without slots has a size too.
#[test]
fn a_layout_without_slots_is_refused_too() {
    for bad in BAD {
        let mut parents = [parent_row(1, &[0x10]), parent_row(2, &[])].concat();
        put(&mut parents, 1, bad.0);
        let case = Case::with("size-no-slots", &parents, b"", b"");
        for words in [&["run"][..], &["classes"], &["show", "0x200000401:1"]] {
            let told = case.run(words).expect_line(2, "refused with 13");
            assert!(told.err.contains(&line(1, bad)), "{told:?}");
        }
        // In an unused row nothing is looked at.
        case.edit("parents.tbl", |parents| parents[PARENT] = 0);
        case.run(&["check"]).expect(0);
    }
}

/// Every row is listed, and beside the size what else is wrong with it.
#[test]
fn a_check_lists_all_that_is_wrong() {
    let case = Case::sample("size-listed");
    case.edit("parents.tbl", |parents| {
        put(parents, 0, 0);
        put(parents, ROW, 65_537);
        let layout = ROW * PARENT + 27;
        parents[layout + 4] = 2;
        parents[layout + 28] = 3;
    });
    let told = case.run(&["check"]).expect(2).out;
    let lines: Vec<&str> = told.lines().skip(1).take(4).collect();
    assert_eq!(
        lines,
        [
            "  parents.tbl row 0, stripe size 0: a stripe of no bytes (13)",
            "  parents.tbl row 2, layout pattern 0x2: neither 0x1 nor 0x40000001 (with holes) (13)",
            "  parents.tbl row 2, stripe size 65537: no multiple of 65,536 (13)",
            "  parents.tbl row 2, layout length: 80 bytes, 3 slots need 104 (13)",
        ]
    );
    let told = case.run(&RUN).expect_line(2, "refused with 13");
    let end = "(13); lfsck-offline check lists all that is wrong\n";
    assert!(told.err.ends_with(end), "{told:?}");
}

/// A size that somebody writes between two runs is refused as the tables are, also where a position
/// was saved; put right, the run goes on.
#[test]
fn a_run_that_was_begun_is_refused_until_it_is_put_right() {
    let case = Case::sample("size-begun");
    case.run(&[&RUN[..], &["--steps", "4"]].concat()).expect(1);
    let good = case.files();
    case.edit("parents.tbl", |parents| put(parents, ROW, 0));
    let before = case.files();
    for words in [&RUN[..], &["run", "--steps", "1"], &["run", "--dry-run"]] {
        let told = case.run(words).expect_line(2, "refused with 13");
        assert!(told.err.contains(&line(ROW, BAD[0])), "{told:?}");
    }
    case.run(&["undo"])
        .expect_line(2, "parents.tbl is not what the run of");
    assert_eq!(case.files(), before);
    case.restore(&good);
    let told = case.run(&RUN).expect(0).out;
    assert!(told.starts_with("The run goes on from the saved position.\n"));
}

/// Names have their own tables: they are listed, mended and taken back.
#[test]
fn names_beside_a_bad_size_are_mended() {
    let (case, good) = (sample("size-names", 0), Case::sample("size-names-good"));
    let before = case.files();
    for words in [&["names"][..], &["names", "--mend"]] {
        let told = case.run(words).expect(0).out;
        assert_eq!(told, good.run(words).expect(0).out);
    }
    case.run(&["undo"]).expect(0);
    let mut after = case.files();
    after.remove(LOG);
    assert_eq!(after, before);
}

/// The sample after a run, and the same as version 0.7.0 left it over another stripe size of file 3.
fn left(name: &str, size: u32) -> (Case, Case) {
    let case = Case::sample(name);
    let start = case.files();
    case.run(&[&RUN[..], &["--steps", "12"]].concat()).expect(1);
    let other = Case::empty(&format!("{name}-left"));
    other.restore(&case.files());
    other.edit("parents.tbl", |parents| put(parents, ROW, size));
    let mut before = start["parents.tbl"].clone();
    put(&mut before, ROW, size);
    let row = &start["parents.tbl"][ROW * PARENT..];
    let digits = |size: &[u8]| hex(&row[..SIZE_AT]) + &hex(size);
    let log = String::from_utf8(case.read(LOG)).expect("a text");
    let good = digits(&row[SIZE_AT..SIZE_AT + 4]);
    assert_eq!(log.matches(&good).count(), 2, "the row before and after");
    let log = log
        .replace(&good, &digits(&size.to_le_bytes()))
        .replace(REUSED, "")
        .replace(&sha256(&start["parents.tbl"]), &sha256(&before))
        .replace(
            &sha256(&case.read("parents.tbl")),
            &sha256(&other.read("parents.tbl")),
        )
        .replace(&version(env!("CARGO_PKG_VERSION")), &version("0.7.0"));
    other.write(LOG, log.as_bytes());
    let at = "position 1 4 2\npolicy 3\n";
    let saved = position("4\nedition 2026-07", at, &other.files());
    other.write(POSITION, saved.as_bytes());
    (case, other)
}

fn version(version: &str) -> String {
    format!("\"version\":\"{version}\"")
}

/// What 0.7.0 changed in such a file is told: all of it, and the story of the file.
#[test]
fn the_log_of_a_run_over_a_bad_size_is_told() {
    for (size, _) in BAD {
        let (case, other) = left("size-log", size);
        for words in [&["log"][..], &["log", THREE], &["log", "0x240000400:0x80"]] {
            let told = case.run(words).expect(0).out;
            let this = format!("lfsck-offline {}", env!("CARGO_PKG_VERSION"));
            let told = told.replace(&this, "lfsck-offline 0.7.0");
            assert_eq!(other.run(words).expect(0).out, told, "{words:?}");
        }
        let told = other.run(&["log", THREE]).expect(0).out;
        assert!(told.contains("slot names this object now"), "{told}");
        let changes = |case: &Case| {
            let told = case.json(&["log"], 0);
            told.list("entries")[0].list("changes").to_vec()
        };
        assert_eq!(changes(&other), changes(&case));
    }
}

/// An undo puts the logged bytes back, and tells what it changed in such a file; then the tables are
/// refused as before the run.
#[test]
fn a_run_over_a_bad_size_is_taken_back() {
    for bad in BAD {
        let (case, other) = left("size-undo", bad.0);
        let told = other.run(&RUN).expect_line(2, "saved by edition 2026-07");
        assert!(told.err.ends_with("--from-start begins without it\n"));
        let from_start = [&RUN[..], &["--from-start"]].concat();
        other.run(&from_start).expect_line(2, &line(ROW, bad));
        let told = other.run(&["undo"]).expect(0).out;
        assert_eq!(told, case.run(&["undo"]).expect(0).out);
        assert!(told.contains("[0x200000401:0x3:0x0]"), "{told}");
        let (mut wanted, mut found) = (case.files(), other.files());
        let parents = wanted.get_mut("parents.tbl").expect("the table");
        put(parents, ROW, bad.0);
        for files in [&mut wanted, &mut found] {
            files.remove(LOG).expect("the log");
        }
        assert_eq!(found, wanted);
        assert!(!found.contains_key(POSITION));
        let told = other.run(&["check"]).expect(2).out;
        assert!(told.contains(&line(ROW, bad)), "{told}");
        other.run(&["log"]).expect(0);
        other
            .run(&["undo"])
            .expect_line(2, "an undo is not taken back");
    }
}

/// A conversion judges no size and changes none. Rows of 2026-07 are as wide as here.
#[test]
fn a_conversion_leaves_sizes() {
    for bad in BAD {
        let (_, other) = left("size-convert", bad.0);
        let before = other.files();
        let told = other.run(&["convert"]).expect(0).out;
        let words = "No row to widen: the parent rows have 48075 bytes.\nThe saved position, of \
                     edition 2026-07, is thrown away.\n";
        assert_eq!(told, words);
        let mut after = other.files();
        after.insert(POSITION.to_string(), before[POSITION].clone());
        assert_eq!(after, before);
        other.run(&["run"]).expect_line(2, &line(ROW, bad));
        // Of an edition before that.
        let case = sample("size-widened", bad.0);
        let wide = case.read("parents.tbl");
        case.write("parents.tbl", &narrowed(&wide));
        assert_eq!(case.read("parents.tbl").len(), 13 * NARROW);
        case.run(&["convert"]).expect(0);
        assert!(case.read("parents.tbl") == wide);
        case.run(&["run"]).expect_line(2, &line(ROW, bad));
    }
}

/// A layout in a dump with another stripe size, and with no slots.
fn lov(size: u32, slots: bool) -> String {
    let digits = hex(&size.to_le_bytes());
    let layout = LOV.replace("0000100001000000", &format!("{digits}01000000"));
    assert_eq!(layout.len(), LOV.len());
    match slots {
        true => layout,
        false => {
            let header = &layout[.."trusted.lov=0x".len() + 2 * 28];
            format!("{header}00000000\n")
        }
    }
}

/// What a dump has is taken in, and the check tells the row with its name; the case stays.
#[test]
fn a_dump_with_a_bad_size_is_taken_in_and_told() {
    for (bad, slots) in BAD.into_iter().flat_map(|bad| [(bad, true), (bad, false)]) {
        let case = Case::empty("size-intake");
        let layout = lov(bad.0, slots);
        let dump = entry("home/a b", &[LMA, &layout]) + &entry("ost3/16", &[LMA, FID]);
        let told = take(&case, dump.as_bytes(), OWNERS.as_bytes(), &[]).expect(2);
        let lines = format!(
            "The tables are not sound: 13, layout against the rules.\n  {}\n      \"home/a b\", \
             line 1 of dump\n",
            line(0, bad)
        );
        assert!(told.out.ends_with(&lines), "{told:?}");
        let told = on_made(&case, &["check"]).expect(2).out;
        assert!(told.ends_with(&format!("  {}\n", line(0, bad))), "{told}");
        on_made(&case, &RUN).expect_line(2, &line(0, bad));
        on_made(&case, &["show", "0x200000401:1"]).expect_line(2, &line(0, bad));
        assert_eq!(crate::intake::table(&case, "parents.tbl").len(), PARENT);
    }
}

#[test]
fn a_dump_with_a_bad_size_is_told_to_machines() {
    let case = Case::empty("size-intake-json");
    let dump = entry("a", &[LMA, &lov(65_536, true)])
        .replace("0100000000000000\n", "0900000000000000\n")
        + &entry("b", &[LMA, &lov(0, false)]);
    let told = take(&case, dump.as_bytes(), OWNERS.as_bytes(), &["--json"]).expect(2);
    let told = parse(&told.out);
    assert_eq!(told.number("answer"), 13);
    assert_eq!(told.get("sound"), &Value::Bool(false));
    let [fault] = told.list("faults") else {
        panic!("{told:?}");
    };
    let texts = ["field", "reason", "name"].map(|name| fault.text(name));
    assert_eq!(texts, ["stripe size 0", "a stripe of no bytes", "b"]);
    let numbers = ["row", "line"].map(|name| fault.number(name));
    assert_eq!(numbers, [1, 5]);
}
