//! Names against objects: findings, mendings, and what is refused.

use difftest::names::{random_names, to_bytes};
use difftest::{Coverage, Random};
use reference::fid::Fid;
use reference::names::{Mark, Namespace, ROOT, find, judge, visible_directories};

use crate::json::{self, Value};
use crate::namespace::{
    CHILDREN, ENTRIES, MEND, Passed, bare, case_of, entry, fid, linked, pass, put, text,
};
use crate::tool::{Case, LOG, expect_lines, hex, timeless};

/// The names of the findings, by their numbers.
const OF_FID: [&str; 5] = [
    "consistent",
    "no FID-in-dirent",
    "differs",
    "no self FID",
    "neither",
];
const OF_RECORD: [&str; 2] = ["consistent", "missing record"];

/// The members that count what the sweeps did.
const SWEEPS: [&str; 4] = [
    "self_fids_taken",
    "fids_written",
    "records_appended",
    "records_removed",
];

const DRY_RUN: &str = "lfsck-offline: a dry run: nothing is written\n";

#[test]
fn the_sample_has_every_finding() {
    let case = Case::sample("names-sample");
    let told = case.json(&["names"], 0);
    let summary = told.get("summary");
    let every = |of: &str, names: &[&str]| {
        let counts = summary.get(of);
        names.iter().all(|name| counts.number(name) > 0)
    };
    assert!(every("fid", &OF_FID) && every("link", &OF_RECORD));
    assert_eq!(summary.number("hidden"), 1);
    assert_eq!(told.number("entry_rows"), 11);
    assert_eq!(told.number("child_rows"), 9);
    let report = case.json(&["names", "--mend", "-n"], 0);
    for sweep in SWEEPS {
        assert!(report.number(sweep) > 0, "{sweep}");
    }
}

#[test]
fn findings_are_told_in_words() {
    let case = Case::sample("names-words");
    let told = case.run(&["names"]).expect(0);
    assert_eq!(told.err, "");
    let lines = [
        "  visible               3  [0x200000401:0x1:0x0]    no FID-in-dirent ",
        "  differs: [0x200000401:0x99:0x0] ",
        "  no self FID: [0x200000401:0x4:0x0]  missing record  \"data.bin\"\n",
        "  7  -                        neither ",
        "  [0x200000401:0x102:0x0]  hidden, left out      8  ",
        "  missing record  \"\\x1b[2Jseen?\"\n",
        "  FID     consistent            5  FID-in-dirent and self FID are the same\n",
        "  link    missing record        6  ",
        "1 entry is in a hidden directory, and is left out of a mending.\n",
    ];
    expect_lines(&told.out, &lines);
    // The first entry and the fifth are consistent.
    for name in ["\"alice\"", "\"notes\""] {
        assert!(!told.out.contains(name), "{told:?}");
    }
    let summary = case.run(&["names", "--summary"]).expect(0).out;
    assert!(summary.starts_with("Summary:\n"), "{summary}");
    assert!(told.out.ends_with(&summary), "{summary}");
    let json = case.json(&["names", "--summary"], 0);
    assert_eq!(json.get("findings"), &Value::Null);
}

/// The finding of an entry in JSON, by the reference.
fn expected(names: &Namespace, marks: &[Mark], row: usize) -> Vec<(&'static str, Value)> {
    let entry = &names.entries[row];
    let visible = visible_directories(&names.children, marks);
    let (of_fid, has_record) = find(names, entry);
    let maybe = |fid: Option<Fid>| fid.map_or(Value::Null, |fid| Value::Text(text(fid)));
    let name = str::from_utf8(&entry.record.name).ok();
    let word = |word: &str| Value::Text(word.to_string());
    vec![
        ("entry", Value::Number(row as u64)),
        ("directory", maybe(Some(entry.record.parent))),
        ("name", name.map_or(Value::Null, word)),
        ("name_hex", word(&hex(&entry.record.name))),
        (
            "visible",
            Value::Bool(visible.contains(&entry.record.parent)),
        ),
        ("child", Value::Number(entry.child as u64)),
        ("self_fid", maybe(names.children[entry.child].own)),
        ("fid_in_dirent", maybe(entry.fid)),
        ("fid_finding", word(OF_FID[of_fid.number() as usize])),
        ("link_finding", word(OF_RECORD[usize::from(!has_record)])),
    ]
}

fn is_consistent(finding: &[(&str, Value)]) -> bool {
    let consistent = Value::Text("consistent".to_string());
    finding[8].1 == consistent && finding[9].1 == consistent
}

/// The findings of a case are those of the reference.
fn expect_findings(case: &Case, names: &Namespace, met: &mut Coverage<String>) {
    let marks = judge(names).expect("no climb is too long");
    let told = case.json(&["names"], 0);
    let all = (0..names.entries.len()).map(|row| expected(names, &marks, row));
    let listed: Vec<_> = all.filter(|finding| !is_consistent(finding)).collect();
    let findings = told.list("findings");
    assert_eq!(findings.len(), listed.len());
    for (finding, expected) in findings.iter().zip(listed) {
        let members = expected
            .iter()
            .map(|(name, value)| (name.to_string(), value.clone()));
        assert_eq!(*finding, Value::Object(members.collect()));
        met.met(format!(
            "{:?} {:?}",
            expected[4].1,
            finding.text("fid_finding")
        ));
    }
}

#[test]
fn findings_are_those_of_the_reference() {
    let mut random = Random::for_test("findings of names");
    let kinds = [true, false]
        .into_iter()
        .flat_map(|visible| OF_FID.map(|name| format!("{:?} {name:?}", Value::Bool(visible))));
    let mut met = Coverage::of("findings", kinds);
    for _ in 0..150 {
        let names = random_names(&mut random);
        let case = case_of("names-random", &names);
        match judge(&names) {
            Some(_) => expect_findings(&case, &names, &mut met),
            None => drop(case.run(&["names"]).expect_line(2, "refused with 39")),
        }
    }
    met.require(3);
}

/// The report of a mending is that of the reference's pass.
fn expect_report(report: &Value, passed: &Passed, entries: usize) {
    assert_eq!(report.number("answer"), passed.answer.into());
    let counts = SWEEPS.map(|sweep| report.number(sweep));
    assert_eq!(counts, passed.report[..4]);
    let stopped = match passed.report[4] {
        row if row == entries as u64 => Value::Null,
        row => Value::Number(row),
    };
    assert_eq!(*report.get("stopped_at"), stopped);
}

#[test]
fn mendings_are_those_of_the_reference() {
    let mut random = Random::for_test("mendings of names");
    let mut met = Coverage::of("answers", [0, 38, 39]);
    for _ in 0..250 {
        let names = random_names(&mut random);
        let case = case_of("names-mendings", &names);
        let (entries, children) = to_bytes(&names, &mut random);
        case.write(ENTRIES, &entries);
        case.write(CHILDREN, &children);
        let before = case.files();
        let passed = pass(&before);
        met.met(passed.answer);
        let status = match passed.answer {
            0 => 0,
            38 => 3,
            _ => 2,
        };
        let told = json::parse(
            &case
                .run(&[&MEND[..], &["--json"]].concat())
                .expect(status)
                .out,
        );
        passed.expect_in(&case);
        match status {
            2 => assert_eq!(case.files(), before),
            _ => expect_report(&told, &passed, names.entries.len()),
        }
    }
    met.require(3);
}

#[test]
fn the_sample_is_mended_once() {
    let case = Case::sample("names-mend");
    let passed = pass(&case.files());
    assert_eq!(passed.report, [1, 3, 4, 2, 11]);
    let told = case.run(&MEND).expect(0);
    passed.expect_in(&case);
    let lines = [
        "  child 6: self FID [0x200000401:0x4:0x0] taken, it had none\n",
        "\"plan.txt\" in [0x200000401:0x100:0x0]: FID-in-dirent [0x200000401:0x2:0x0] written, it was [0x200000401:0x99:0x0]\n",
        "  entry 6, \"data link\" in [0x200000401:0x100:0x0]: FID-in-dirent [0x200000401:0x4:0x0] written, it had none\n",
        "  child 1, [0x200000401:0x101:0x0]: record appended, \"drafts\" in [0x200000401:0x100:0x0]\n",
        "  child 4, [0x200000401:0x2:0x0]: record removed, \"old plan.txt\" in [0x200000401:0x100:0x0]\n",
        "  child 5, [0x200000401:0x3:0x0]: record removed, \"notes\" in [0x200000401:0x100:0x0], a repeat\n",
        "Mended: self FIDs taken 1, FID-in-dirents written 3, records appended 4, records removed 2.\n",
        "Answer 0: all four sweeps are finished.\n",
    ];
    expect_lines(&told.out, &lines);
    let left = case.json(&["names"], 0);
    let rows: Vec<u64> = left
        .list("findings")
        .iter()
        .map(|it| it.number("entry"))
        .collect();
    // Nothing has the FID of one, and the other is in the hidden directory.
    assert_eq!(rows, [8, 9]);
    let mended = case.files();
    let told = case.run(&MEND).expect(0).out;
    let nothing = "Nothing was changed.\nMended: nothing.\n";
    assert!(told.starts_with(nothing), "{told}");
    assert_eq!(case.files(), mended, "no entry in the log either");
}

#[test]
fn a_dry_run_tells_what_a_mending_would() {
    let case = Case::sample("names-dry");
    let before = case.files();
    for words in [&["--json"][..], &[], &["--summary"]] {
        case.restore(&before);
        let dry = case
            .run(&[&MEND[..], &["--dry-run"], words].concat())
            .expect(0);
        assert_eq!(dry.err, DRY_RUN);
        assert_eq!(case.files(), before);
        let told = case.run(&[&MEND[..], words].concat()).expect(0);
        assert_eq!((told.out, told.err.as_str()), (dry.out, ""));
        assert_ne!(case.files(), before);
    }
    case.run(&["names", "--dry-run"])
        .expect_line(64, "--mend is missing");
}

#[test]
fn a_summary_leaves_the_changes_out() {
    let case = Case::sample("names-summary");
    let told = case
        .run(&["names", "--mend", "-n", "--summary"])
        .expect(0)
        .out;
    let start = "Mended: self FIDs taken 1, FID-in-dirents written 3";
    assert!(told.starts_with(start), "{told}");
    let json = case.json(&["names", "--mend", "-n", "--summary"], 0);
    assert_eq!(json.get("changes"), &Value::Null);
}

/// The example in docs/RULES.md.
#[test]
fn the_example_of_the_rules_is_true() {
    let (directory, file, other) = (fid(0x100), fid(1), fid(7));
    let names = Namespace {
        entries: vec![
            entry(ROOT, 0, Some(directory), b"d"),
            entry(directory, 1, None, b"a"),
            entry(directory, 1, Some(other), b"b"),
            entry(directory, 2, Some(other), b"f"),
        ],
        children: vec![
            linked(Some(directory), &[(ROOT, b"d")]),
            bare(None, None),
            linked(
                Some(file),
                &[(directory, b"old"), (directory, b"f"), (directory, b"f")],
            ),
        ],
    };
    let case = case_of("names-example", &names);
    let told = case.json(&["names"], 0);
    let findings = told.list("findings").iter();
    let words: Vec<[&str; 2]> = findings
        .map(|it| [it.text("fid_finding"), it.text("link_finding")])
        .collect();
    let expected = [
        ["neither", "missing record"],
        ["no self FID", "missing record"],
        ["differs", "consistent"],
    ];
    assert_eq!(words, expected);
    let report = case.json(&MEND, 0);
    assert_eq!(SWEEPS.map(|sweep| report.number(sweep)), [1, 2, 2, 2]);
    assert_eq!(case.read(CHILDREN)[4130 + 32..4130 + 34], [62, 0]);
}

/// A child whose linkEA has room for no second name, with entries before and behind it.
fn full() -> Namespace {
    let long = vec![b'n'; 4096 - 24 - 18 - 19];
    let gone = (ROOT, &b"gone"[..]);
    Namespace {
        entries: vec![
            entry(ROOT, 0, None, b"first"),
            entry(ROOT, 1, None, b"\x1bsecond"),
            entry(ROOT, 2, Some(fid(3)), b"third"),
        ],
        children: vec![
            linked(Some(fid(1)), &[gone]),
            linked(Some(fid(2)), &[(ROOT, &long)]),
            bare(None, None),
        ],
    }
}

/// Sweeps and appends before the record that doesn't fit stand, and no record is removed.
#[test]
fn a_record_that_outgrows_the_room_stops_the_mending() {
    let case = case_of("names-full", &full());
    let passed = pass(&case.files());
    assert_eq!((passed.answer, passed.report), (38, [1, 2, 1, 0, 1]));
    let before = case.files();
    let dry = case.run(&[&MEND[..], &["-n"]].concat()).expect(3);
    assert_eq!(case.files(), before);
    let told = case.run(&MEND).expect(3);
    assert_eq!((&told.out, told.err.as_str()), (&dry.out, ""));
    passed.expect_in(&case);
    let line = "Answer 38: a record outgrows the room for its child's linkEA; it stopped in front \
                of entry 1, \"\\x1bsecond\" in [0x200000007:0x1:0x0], child 1 \
                [0x200000401:0x2:0x0]; what was done before it stands, and no record is removed.\n";
    assert!(told.out.ends_with(line), "{told:?}");
    let log = case.run(&["log"]).expect(0).out;
    expect_lines(
        &log,
        &["  Answer 38: ", "it stopped in front of entry 1.\n"],
    );
    let again = case.json(&MEND, 3);
    assert_eq!(again.number("stopped_at"), 1);
    let stopped = again.get("stopped_entry");
    assert_eq!(stopped.text("name_hex"), hex(b"\x1bsecond"));
    assert_eq!(stopped.number("child"), 1);
    case.run(&["undo"]).expect(0);
    assert_eq!(case.read(CHILDREN), before[CHILDREN]);
    assert_eq!(case.read(ENTRIES), before[ENTRIES]);
}

/// A row that got its self FID is a directory to the next call, which judges anew.
#[test]
fn a_second_mending_sees_the_directories_that_the_first_made() {
    let names = Namespace {
        entries: vec![
            entry(ROOT, 0, Some(fid(1)), b"d"),
            entry(fid(1), 1, Some(fid(2)), b"x"),
        ],
        children: vec![bare(None, Some(ROOT)), bare(Some(fid(2)), None)],
    };
    let case = case_of("names-anew", &names);
    let appended = |_| case.json(&MEND, 0).number("records_appended");
    assert_eq!([1, 2, 3].map(appended), [1, 1, 0]);
}

/// After a mending that stopped, a row may have its self FID and no linkEA yet.
#[test]
fn a_mending_that_stopped_may_leave_a_circle() {
    let mut names = full();
    names.children[2].up = Some(fid(3));
    let case = case_of("names-stopped", &names);
    let before = case.files();
    case.run(&["names"]).expect(0);
    case.run(&MEND).expect(3);
    let line = "refused with 39: children.tbl row 2, '..' [0x200000401:0x3:0x0]";
    case.run(&["names"]).expect_line(2, line);
    case.run(&["undo"]).expect(0);
    assert_eq!(case.read(CHILDREN), before[CHILDREN]);
    case.run(&["names"]).expect(0);
}

/// Directories that each stand in the next, the last in ROOT; the lowest is the last row.
fn chain(levels: u32) -> Namespace {
    let up = |id: u32| if id == 1 { ROOT } else { fid(id - 1) };
    let directory = |id: u32| bare(Some(fid(id)), Some(up(id)));
    Namespace {
        entries: vec![entry(fid(levels), 0, None, b"low")],
        children: (1..=levels).map(directory).collect(),
    }
}

#[test]
fn a_climb_of_4096_levels_is_followed_and_no_longer_one() {
    let case = case_of("names-chain", &chain(4_096));
    let told = case.json(&["names"], 0);
    assert_eq!(told.list("findings")[0].get("visible"), &Value::Bool(true));
    case.run(&MEND).expect(0);
    put(&case, &chain(4_097));
    let before = case.files();
    let line = "refused with 39: children.tbl row 4096, '..' [0x200000401:0x1000:0x0] of \
                [0x200000401:0x1001:0x0]: 4097 levels to climb, and at most 4096 are followed";
    for words in [&["names"][..], &MEND, &["names", "--mend", "-n"]] {
        case.run(words).expect_line(2, line);
    }
    assert_eq!(case.files(), before);
    let told = case.run(&["check"]).expect(2).out;
    let lines = [
        "The tables are sound.\n",
        "The names are not sound: 39, a climb from directory to directory is too long or circular.\n",
        "  children.tbl row 4096, ",
    ];
    expect_lines(&told, &lines);
}

#[test]
fn a_circle_is_told_row_by_row() {
    let names = Namespace {
        entries: Vec::new(),
        children: vec![
            bare(Some(fid(1)), Some(ROOT)),
            bare(Some(fid(2)), Some(fid(3))),
            bare(Some(fid(3)), Some(fid(3))),
            // Without a self FID it is no directory.
            bare(None, Some(fid(3))),
        ],
    };
    let case = case_of("names-circle", &names);
    let before = case.files();
    let line = "refused with 39: children.tbl row 1, '..' [0x200000401:0x3:0x0] of \
                [0x200000401:0x2:0x0]: the climb goes in a circle (39); \
                lfsck-offline check lists all that is wrong";
    for words in [&["names"][..], &MEND] {
        case.run(words).expect_line(2, line);
        let words = [words, &["--json"]].concat();
        let told = json::parse(&case.run(&words).expect(2).out);
        assert_eq!(told.number("answer"), 39);
    }
    assert_eq!(case.files(), before);
    let told = case.json(&["check"], 2);
    assert_eq!(told.number("answer"), 0);
    let faults = told.get("names").list("faults");
    let rows: Vec<u64> = faults.iter().map(|fault| fault.number("row")).collect();
    assert_eq!(rows, [1, 2]);
}

/// A table, what is done to it, the number and the words of the refusal.
type Harm = (&'static str, fn(&mut Vec<u8>), u32, &'static str);

const HARMS: [Harm; 10] = [
    (
        ENTRIES,
        |it| it.truncate(11 * 293 - 1),
        11,
        "entries.tbl, length: 292 bytes after the last whole row",
    ),
    (
        CHILDREN,
        |it| it.push(0),
        11,
        "children.tbl, length: 1 byte after the last whole row",
    ),
    (
        ENTRIES,
        |it| it[293 + 16] = 9,
        16,
        "entries.tbl row 1, child's row 9: there are 9 child rows",
    ),
    (
        ENTRIES,
        |it| it[36] = 0,
        31,
        "entries.tbl row 0, name: it has no bytes",
    ),
    (
        ENTRIES,
        |it| it[37] = 1,
        31,
        "entries.tbl row 0, name: 261 bytes, the room is 255",
    ),
    (
        ENTRIES,
        |it| it[39] = b'/',
        31,
        "entries.tbl row 0, name: a slash at 1",
    ),
    (
        ENTRIES,
        |it| it[40] = 0,
        31,
        "entries.tbl row 0, name: a zero byte at 2",
    ),
    (
        CHILDREN,
        |it| it[34] = 0,
        31,
        "children.tbl row 0, linkEA: header, magic: 0x11eaf100",
    ),
    (
        CHILDREN,
        |it| it[33] = 0xff,
        31,
        "children.tbl row 0, linkEA: 65327 bytes, the room is 4096",
    ),
    (
        CHILDREN,
        |it| it[38] = 2,
        31,
        "children.tbl row 0, linkEA: header, record count: 2",
    ),
];

/// Names are listed, counted and mended, or would be.
const ASKED: [&[&str]; 4] = [
    &["names"],
    &["names", "--summary"],
    &MEND,
    &["names", "--mend", "-n"],
];

#[test]
fn each_refusal_names_file_row_and_reason() {
    let case = Case::sample("names-refused");
    let sample = case.files();
    for (table, harm, number, words) in HARMS {
        case.restore(&sample);
        case.edit(table, harm);
        let before = case.files();
        let line = format!("the names are refused with {number}: {words}");
        let told = ASKED.map(|asked| case.run(asked));
        told.into_iter()
            .for_each(|told| drop(told.expect_line(2, &line)));
        let told = json::parse(&case.run(&["names", "--json"]).expect(2).out);
        assert_eq!(told.number("answer"), number.into());
        let told = case.run(&["check"]).expect(2).out;
        expect_lines(
            &told,
            &[&format!("The names are not sound: {number}, "), words],
        );
        assert_eq!(case.files(), before);
        // Whoever doesn't look at names goes on.
        case.run(&["classes"]).expect(0);
    }
}

/// The lower number is given, and the check lists both.
#[test]
fn of_several_faults_the_first_number_is_given() {
    let case = Case::sample("names-several");
    case.edit(CHILDREN, |bytes| bytes[34] = 0);
    case.edit(ENTRIES, |bytes| bytes[293 + 16] = 200);
    let more = "child's row 200: there are 9 child rows (16); lfsck-offline check lists all";
    case.run(&["names"]).expect_line(2, more);
    let told = case.run(&["check"]).expect(2).out;
    let lines = [
        "The names are not sound: 16, an entry's child at or past the child rows.\n",
        "  entries.tbl row 1, child's row 200",
        "  children.tbl row 0, linkEA: header, magic",
    ];
    expect_lines(&told, &lines);
}

#[test]
fn a_table_of_names_that_is_too_long_is_refused() {
    for (table, most) in [(ENTRIES, 65_536_u64 * 293), (CHILDREN, 65_536 * 4130)] {
        let case = case_of("names-too-long", &Namespace::default());
        let file = std::fs::File::create(case.path().join(table)).unwrap();
        file.set_len(most + 1).unwrap();
        let line = format!("{table}, length: the file is longer than {most} bytes");
        case.run(&["names"]).expect_line(2, &line);
    }
}

#[test]
fn one_table_of_names_needs_the_other() {
    let case = Case::sample("names-half");
    let sample = case.files();
    for (gone, there) in [(ENTRIES, CHILDREN), (CHILDREN, ENTRIES)] {
        case.restore(&sample);
        std::fs::remove_file(case.path().join(gone)).unwrap();
        let line = format!("{gone}: there is no such file, and {there} is there");
        let told = [&["names"][..], &MEND, &["check"]].map(|words| case.run(words));
        told.into_iter()
            .for_each(|told| drop(told.expect_line(74, &line)));
        case.run(&["classes"]).expect(0);
    }
}

/// A case without names is what it was before there were any.
#[test]
fn a_case_without_names_says_so() {
    let case = Case::sample("names-missing");
    let gone = [ENTRIES, CHILDREN].map(|table| case.path().join(table));
    gone.iter()
        .for_each(|path| std::fs::remove_file(path).unwrap());
    for words in ASKED {
        let line = "there are no names here, neither entries.tbl nor children.tbl";
        case.run(words).expect_line(74, line);
    }
    let told = case.run(&["check"]).expect(0).out;
    assert!(!told.contains("names"), "{told}");
    let Value::Object(members) = case.json(&["check"], 0) else {
        panic!("no object");
    };
    assert!(!members.contains_key("names"));
}

#[test]
fn names_need_no_files_beside_them() {
    let case = Case::empty("names-alone");
    put(&case, &full());
    case.run(&["names"]).expect(0);
    case.run(&MEND).expect(3);
    case.run(&["undo"]).expect(0);
    case.run(&["check"]).expect_line(74, "parents.tbl");
}

#[test]
fn names_that_are_none_are_sound() {
    let case = case_of("names-none", &Namespace::default());
    let told = case.run(&["names"]).expect(0).out;
    assert!(told.starts_with("Every entry is consistent.\n"), "{told}");
    case.run(&MEND).expect(0);
    let line = "The names are sound: entries.tbl 0 rows, children.tbl 0 rows.\n";
    expect_lines(&case.run(&["check"]).expect(0).out, &[line]);
    assert!(!case.files().contains_key(LOG));
}

/// Entries of a hidden directory and records that name one are as they were, repeats too; and a
/// hidden entry gives no self FID.
#[test]
fn hidden_directories_are_left_out() {
    let hidden = fid(9);
    let stays = [(hidden, &b"a"[..]), (hidden, b"a"), (fid(77), b"b")];
    let names = Namespace {
        entries: vec![
            entry(hidden, 1, None, b"x"),
            entry(hidden, 2, Some(fid(5)), b"y"),
            entry(ROOT, 2, None, b"z"),
        ],
        children: vec![
            bare(Some(hidden), None),
            linked(Some(fid(1)), &stays),
            bare(None, None),
        ],
    };
    let case = case_of("names-hidden", &names);
    let before = case.files();
    let told = case.run(&["names"]).expect(0).out;
    let hidden = "2 entries are in hidden directories, and are left out of a mending.\n";
    assert!(told.ends_with(hidden), "{told}");
    let told = case.run(&MEND).expect(0).out;
    assert!(told.starts_with("Nothing was changed.\n"), "{told}");
    assert_eq!(timeless(&case.files()), before);
}
