//! Cases made from attribute dumps: real ones, good ones, ones with faults, and ones that the check
//! refuses.

use std::io::Write;
use std::path::{Path, PathBuf};
use std::process::{Command, Stdio};

use difftest::dumps::{Dump, Flaw};
use difftest::{Coverage, Random};
use reference::intake::{Fault, read};

use crate::bytes::PARENT;
use crate::json::{Value, parse};
use crate::tool::{Case, TOOL, Told, faulty};

const SITE: &str = concat!(env!("CARGO_MANIFEST_DIR"), "/../../tests/data/site");
/// A self FID, [0x200000401:0x1:0x0].
pub const LMA: &str = "trusted.lma=0x000000000000000001040000020000000100000000000000\n";
/// The layout of a file with one slot.
pub const LOV: &str = "trusted.lov=0xd00bd10b01000000010000000000000001040000020000000000100001000000\
                   000400400200000010000000000000000000000003000000\n";
/// A claim on slot 0 of that file.
pub const FID: &str = "trusted.fid=0x01040000020000000100000000000000\n";
pub const OWNERS: &str = "1001 100 0\n1001 100 3\n1001 100 3\n";

/// The case that an intake makes, in a directory of the test's own.
pub fn made(case: &Case) -> PathBuf {
    case.path().join("made")
}

/// Takes in a dump with an owners file.
pub fn take(case: &Case, dump: &[u8], owners: &[u8], words: &[&str]) -> Told {
    case.write("dump", dump);
    case.write("owners", owners);
    let words: Vec<&str> = ["dump", "--owners", "owners"]
        .into_iter()
        .chain(words.iter().copied())
        .collect();
    intake(case, TOOL.as_ref(), &words)
}

/// The tool with its words after the directory.
pub fn intake(case: &Case, tool: &Path, words: &[&str]) -> Told {
    let mut command = Command::new(tool);
    command.current_dir(case.path()).arg("intake").arg("made");
    command.args(words).stdin(Stdio::null());
    command.output().expect("the tool").into()
}

/// The same with this in its standard input.
fn of_input(case: &Case, words: &[&str], input: &[u8]) -> Told {
    let mut command = Command::new(TOOL);
    command.current_dir(case.path()).arg("intake").arg("made");
    command.args(words).stdin(Stdio::piped());
    command.stdout(Stdio::piped()).stderr(Stdio::piped());
    let mut child = command.spawn().expect("the tool");
    let _ = child.stdin.take().expect("a pipe").write_all(input);
    child.wait_with_output().expect("the tool").into()
}

/// Another command on the case that was made.
pub fn on_made(case: &Case, words: &[&str]) -> Told {
    let mut command = Command::new(TOOL);
    command.arg(words[0]).arg(made(case)).args(&words[1..]);
    command.output().expect("the tool").into()
}

pub fn table(case: &Case, name: &str) -> Vec<u8> {
    std::fs::read(made(case).join(name)).expect(name)
}

pub fn of_site(name: &str) -> Vec<u8> {
    std::fs::read(Path::new(SITE).join(name)).expect(name)
}

/// An entry of these lines.
pub fn entry(name: &str, lines: &[&str]) -> String {
    format!("# file: {name}\n{}\n", lines.concat())
}

#[test]
fn a_real_dump_is_taken_in_checked_classed_and_mended() {
    let case = Case::empty("intake-site");
    let spare = ["--spare-files", "1", "--spare-objects", "2"];
    let told = take(&case, &of_site("dump.txt"), &of_site("owners.txt"), &spare).expect(0);
    assert_eq!(
        told.out,
        "A case is in made: 4 files and 5 objects from 1 dump.\n\
         Spare rows: 1 for files, 2 for objects. FIDs in reserve: 0.\n\
         The tables are sound.\n"
    );
    let (mut parents, mut objects) = (of_site("parents.tbl"), of_site("objects.tbl"));
    parents.resize(parents.len() + PARENT, 0);
    objects.resize(objects.len() + 2 * 46, 0);
    assert!(table(&case, "parents.tbl") == parents && table(&case, "objects.tbl") == objects);
    assert_eq!(table(&case, "reserve.tbl"), b"");
    on_made(&case, &["check"]).expect(0);
    let classes = on_made(&case, &["classes", "--exit-code"]).expect(4).out;
    for class in ["DANGLING", "BLANK", "WRONG-OST", "ORPHAN"] {
        assert!(classes.contains(class), "{class}: {classes}");
    }
    let told = on_made(&case, &["run", "--create", "--adopt"]).expect(0);
    let repairs = "Repairs: DANGLING 1, BLANK 1, ORPHAN 2, WRONG-OST 1.\n";
    assert!(told.out.contains(repairs), "{told:?}");
    on_made(&case, &["classes", "--exit-code"]).expect(0);
}

#[test]
fn standard_input_and_several_dumps_give_the_same() {
    let case = Case::empty("intake-sources");
    let dump = of_site("dump.txt");
    case.write("owners", &of_site("owners.txt"));
    let text = str::from_utf8(&dump).expect("a text");
    let at = text.find("# file: ost0/16").expect("an object");
    case.write("first", &dump[..at]);
    case.write("second", &dump[at..]);
    case.write("whole", &dump);
    let expected = (of_site("parents.tbl"), of_site("objects.tbl"));
    for (words, input) in [
        (&["whole"][..], &b""[..]),
        (&["first", "second"], b""),
        (&[], &dump),
        (&["-"], &dump),
        (&["first", "-"], &dump[at..]),
        (&["-", "second"], &dump[..at]),
        (&["whole", "/dev/null"], b""),
    ] {
        let words: Vec<&str> = [words, &["--owners", "owners"]].concat();
        of_input(&case, &words, input).expect(0);
        let tables = (table(&case, "parents.tbl"), table(&case, "objects.tbl"));
        assert!(tables == expected, "{words:?}");
        std::fs::remove_dir_all(made(&case)).expect("the case");
    }
    let owners = of_site("owners.txt");
    of_input(&case, &["whole", "--owners", "-"], &owners).expect(0);
}

/// Each dump is refused by a line with its file, the line's number, the reason and the line, and no
/// case is made.
fn expect_faults(name: &str, faults: &[(String, &str)]) {
    let case = Case::empty(name);
    for (dump, words) in faults {
        let told = take(&case, dump.as_bytes(), OWNERS.as_bytes(), &[]);
        let told = told.expect_line(2, words);
        assert!(
            told.err.starts_with("lfsck-offline: dump: line "),
            "{told:?}"
        );
        assert!(!made(&case).exists(), "{told:?}");
    }
}

#[test]
fn lines_that_are_bad() {
    let good = entry("a", &[LMA, LOV]);
    expect_faults(
        "intake-lines",
        &[
            (
                "\n".to_string(),
                "line 1 is refused with 33: an empty line, and no entry is open: \"\"",
            ),
            (
                format!("{good}\u{1b}[2J\n"),
                "line 5 is refused with 33: no entry is open, and this line begins none \
                 ('# file:'): \"\\x1b[2J\"",
            ),
            (
                entry("a", &[LMA, "user.x=0x00\n"]),
                "line 3 is refused with 33: no attribute that begins with 'trusted.' (getfattr -m \
                 '^trusted\\.' prints no others): \"user.x=0x00\"",
            ),
            (
                format!("# file: a\n{LMA}{good}"),
                "line 3 is refused with 33: the entry of line 1 has no empty line at its end: \
                 \"# file: a\"",
            ),
        ],
    );
}

#[test]
fn values_that_are_bad() {
    let value = |text: &str| entry("a", &[&format!("trusted.{text}\n")]);
    expect_faults(
        "intake-values",
        &[
            (
                value("lov=0x123"),
                "line 2 is refused with 33: trusted.lov has 3 digits, an odd number: \
                 \"trusted.lov=0x123\"",
            ),
            (
                value("lma=0x00\r"),
                "line 2 is refused with 33: \"\\x0d\" is no hexadecimal digit, after 2 digits of \
                 trusted.lma: \"trusted.lma=0x00\\x0d\"",
            ),
            (
                value("fid=\"x\""),
                "line 2 is refused with 33: trusted.fid without '=0x' and hexadecimal digits: \
                 \"trusted.fid=\\\"x\\\"\"",
            ),
            (
                value("lma=0x00"),
                "line 2 is refused with 33: trusted.lma has 1 byte, not 24: \"trusted.lma=0x00\"",
            ),
            (
                value("fid=0x0000"),
                "line 2 is refused with 33: trusted.fid has 2 bytes, not 16 or 32: \
                 \"trusted.fid=0x0000\"",
            ),
        ],
    );
}

#[test]
fn entries_that_are_bad() {
    let long = format!("trusted.lov=0x{}\n", "00".repeat(48_049));
    expect_faults(
        "intake-entries",
        &[
            (
                entry("a", &[LMA, FID, LMA]),
                "line 4 is refused with 34: trusted.lma a second time in this entry: \
                 \"trusted.lma=0x0000",
            ),
            (
                entry("x y", &[LOV]),
                "line 3 is refused with 35: no trusted.lma, so the self FID is missing; the entry \
                 is \"x y\", from line 1 on",
            ),
            (
                entry("a", &[LMA, LOV]) + &entry("b\\012", &[LMA]),
                "line 7 is refused with 36: neither trusted.lov nor trusted.fid; the entry is \
                 \"b\\\\012\", from line 5 on",
            ),
            (
                entry("a", &[LMA, LOV, FID]),
                "line 5 is refused with 36: trusted.lov and trusted.fid, which make it a file and \
                 an object; the entry is \"a\"",
            ),
            (
                entry("a", &[LMA, &long]),
                "line 4 is refused with 37: a layout of more than 48048 bytes, which is the room of \
                 a row; the entry is \"a\"",
            ),
        ],
    );
}

#[test]
fn dumps_and_owners_that_end_too_soon() {
    let good = entry("a", &[LMA, LOV]);
    expect_faults(
        "intake-ends",
        &[
            (
                format!("{good}# file: b c\n{LMA}"),
                "line 5 is refused with 33: the dump ends before the empty line that closes this \
                 entry: \"# file: b c\"",
            ),
            (
                format!("{good}# fi"),
                "line 5 is refused with 33: the dump ends within this line: \"# fi\"",
            ),
            (
                good.repeat(4),
                "line 16 is refused with 33: the owners file has no line 4 for this entry; the \
                 entry is \"a\", from line 13 on",
            ),
        ],
    );
}

#[test]
fn an_owners_line_is_shown() {
    let case = Case::empty("intake-owners");
    let dump = entry("a", &[LMA, LOV]);
    take(&case, dump.as_bytes(), b"1 2\n", &[]).expect_line(
        2,
        "dump: line 4 is refused with 33: line 1 of the owners file is no 'uid gid index': \
         \"1 2\"; the entry is \"a\", from line 1 on",
    );
    take(&case, dump.as_bytes(), b"", &[]).expect_line(2, "has no line 1 for this entry");
}

#[test]
fn the_line_is_that_of_its_own_dump() {
    let case = Case::empty("intake-second");
    case.write("owners", OWNERS.as_bytes());
    case.write("first", entry("a", &[LMA, LOV]).as_bytes());
    case.write("second", entry("b", &[LMA, "user.x\n"]).as_bytes());
    let told = intake(
        &case,
        TOOL.as_ref(),
        &["first", "second", "--owners", "owners"],
    );
    told.expect_line(2, "second: line 3 is refused with 33");
    case.write("first", b"# file: a\n");
    let told = intake(
        &case,
        TOOL.as_ref(),
        &["first", "second", "--owners", "owners"],
    );
    told.expect_line(2, "first: line 1 is refused with 33: the dump ends before");
    assert!(!made(&case).exists());
    let words = ["first", "second", "--owners", "owners", "--json"];
    let failure = parse(&intake(&case, TOOL.as_ref(), &words).expect(2).out);
    assert_eq!(
        (failure.number("status"), failure.number("answer")),
        (2, 33)
    );
}

/// Random dumps with flaws: number and line are those of the reference, and the reason is one that
/// belongs to the number.
#[test]
fn faults_are_those_of_the_reference() {
    let case = Case::empty("intake-random");
    let mut random = Random::for_test("intake by the tool");
    let mut met = Coverage::of("numbers", [0, 33, 34, 35, 36, 37]);
    for _ in 0..400 {
        let flaws = [random.pick(&Flaw::ALL), random.pick(&Flaw::ALL)];
        let count = random.below(3);
        let dump = Dump::with(&flaws[..count], &mut random);
        // The tool's tables have rows enough for all.
        let (mut parents, mut objects) = (vec![0; 8 * PARENT], vec![0; 8 * 46]);
        let expected = read(&dump.text, &dump.owners, &mut parents, &mut objects);
        let told = take(&case, &dump.text, &dump.owners, &[]);
        match expected {
            Ok(()) => {
                met.met(0);
                let (files, others) = (table(&case, "parents.tbl"), table(&case, "objects.tbl"));
                assert!(parents.starts_with(&files) && objects.starts_with(&others));
                assert!(
                    told.status == Some(0) || told.out.contains("not sound"),
                    "{told:?}"
                );
                std::fs::remove_dir_all(made(&case)).expect("the case");
            }
            Err(fault) => {
                met.met(fault.answer);
                expect_fault(told, &fault);
                assert!(!made(&case).exists());
                let told = take(&case, &dump.text, &dump.owners, &["--json"]).expect(2);
                let told = parse(&told.out);
                let (line, number) = (fault.line, fault.answer.into());
                let told = told.get("fault");
                assert_eq!((told.number("line"), told.number("number")), (line, number));
            }
        }
    }
    met.require(1);
}

/// Line and number of a fault are told, with a reason that belongs to the number.
fn expect_fault(told: Told, fault: &Fault) {
    let words = format!("line {} is refused with {}: ", fault.line, fault.answer);
    let told = told.expect_line(2, &words);
    let reason = told.err.split(&words).nth(1).expect("a reason");
    assert!(reason.contains(word_of(fault.answer)), "{told:?}");
}

/// A word that is in every reason of a number.
fn word_of(number: u32) -> &'static str {
    match number {
        34 => "a second time",
        35 => "no trusted.lma",
        36 => "trusted.lov",
        37 => "more than 48048 bytes",
        _ => "\"",
    }
}

/// A dump and a list of FIDs with three things that the check refuses.
fn unsound(name: &str) -> (Case, String) {
    let case = Case::empty(name);
    let zero = format!("trusted.lma=0x{}\n", "00".repeat(24));
    let dump = entry("a b\\012", &[LMA, "trusted.lov=0x00\n"])
        + &entry("c", &[&zero, FID])
        + &entry("d", &[LMA, FID]);
    case.write("list", b"# FIDs\n0x240000400:1\n0x1:1\n");
    (case, dump)
}

/// What the check refuses is told with the name in the dump, and the case stays.
#[test]
fn what_the_check_refuses_is_told_by_its_name() {
    let (case, dump) = unsound("intake-unsound");
    let told = take(
        &case,
        dump.as_bytes(),
        OWNERS.as_bytes(),
        &["--reserve", "list"],
    )
    .expect(2);
    assert_eq!(
        told.out,
        "A case is in made: 1 file and 2 objects from 1 dump.\n\
         Spare rows: 0 for files, 0 for objects. FIDs in reserve: 2.\n\
         The tables are not sound: 13, layout against the rules.\n  \
         parents.tbl row 0, layout length: 1 bytes, a header alone is 32 (13)\n      \
         \"a b\\\\012\", line 1 of dump\n  \
         objects.tbl row 0, self FID [0x0:0x0:0x0]: sequence below 0x200000400 (14)\n      \
         \"c\", line 5 of dump\n  \
         reserve.tbl row 1, FID [0x1:0x1:0x0]: sequence below 0x200000400 (14)\n      \
         line 3 of list\n"
    );
    on_made(&case, &["check"]).expect(2);
}

#[test]
fn what_the_check_refuses_is_told_to_machines() {
    let (case, dump) = unsound("intake-unsound-json");
    let words = ["--reserve", "list", "--json"];
    let told = parse(
        &take(&case, dump.as_bytes(), OWNERS.as_bytes(), &words)
            .expect(2)
            .out,
    );
    assert_eq!((told.number("answer"), told.number("objects")), (13, 2));
    let faults = told.list("faults");
    assert_eq!(faults.len(), 3);
    assert_eq!(faults[0].text("name"), "a b\\012");
    assert_eq!(
        (faults[1].text("file"), faults[1].number("line")),
        ("dump", 5)
    );
    assert_eq!(
        (faults[2].text("file"), faults[2].number("line")),
        ("list", 3)
    );
}

#[test]
fn a_reserve_is_a_list_of_fids() {
    let case = Case::empty("intake-reserve");
    let dump = entry("a", &[LMA, LOV]);
    case.write(
        "list",
        b"\n# new\n[0x240000400:0x80:0x0]\n0x240000400:129\n",
    );
    take(&case, dump.as_bytes(), b"1 2 3", &["--reserve=list"]).expect(0);
    let fids = [128, 129].map(|id| reference::fid::Fid::new(0x2_4000_0400, id).to_bytes());
    assert_eq!(table(&case, "reserve.tbl"), fids.concat());
    std::fs::remove_dir_all(made(&case)).expect("the case");
    case.write("list", b"0x240000400:1\n\x1b\n");
    let told = take(&case, dump.as_bytes(), b"1 2 3", &["--reserve", "list"]);
    told.expect_line(2, "list: line 2: this is no FID: \"\\x1b\"");
    assert!(!made(&case).exists());
}

/// What a dump that is refused has for machines.
fn failure(case: &Case, dump: &str, words: &[&str]) -> Value {
    let words: Vec<&str> = words.iter().copied().chain(["--json"]).collect();
    let told = take(case, dump.as_bytes(), OWNERS.as_bytes(), &words).expect(2);
    parse(&told.out)
}

/// For machines a fault has file, line, number, reason and the line as members of their own.
#[test]
fn a_fault_is_told_to_machines() {
    let case = Case::empty("intake-fault-json");
    let good = entry("a", &[LMA, LOV]);
    let dump = good.clone() + &entry("b c", &[LMA, "user.\u{e9}\n"]);
    let told = failure(&case, &dump, &[]);
    assert_eq!((told.number("status"), told.number("answer")), (2, 33));
    let fault = told.get("fault");
    assert_eq!((fault.text("file"), fault.number("line")), ("dump", 7));
    assert_eq!(fault.number("number"), 33);
    let reason = fault.text("reason");
    assert!(reason.starts_with("no attribute that begins"), "{reason}");
    assert!(!reason.contains("user."), "{reason}");
    assert_eq!(fault.text("text"), "user.\u{e9}");
    assert_eq!(fault.text("text_hex"), "757365722ec3a9");
    assert_eq!((fault.text("name"), fault.number("entry_line")), ("b c", 5));
    let told = failure(&case, &(good + &entry("b", &[LMA])), &[]);
    let fault = told.get("fault");
    assert_eq!((fault.number("line"), fault.number("number")), (7, 36));
    assert_eq!((fault.text("text"), fault.text("name_hex")), ("", "62"));
}

/// A line outside entries has no entry, one of a list of FIDs no number, and what is no line of a
/// file has no fault.
#[test]
fn a_fault_has_what_applies() {
    let case = Case::empty("intake-fault-null");
    let good = entry("a", &[LMA, LOV]);
    let told = failure(&case, &format!("{good}# file: b"), &[]);
    assert_eq!(told.get("fault").number("line"), 5);
    assert_eq!(told.get("fault").get("entry_line"), &Value::Null);
    case.write("list", b"\nabc\n");
    let told = failure(&case, &good, &["--reserve", "list"]);
    let fault = told.get("fault");
    assert_eq!((fault.text("file"), fault.number("line")), ("list", 2));
    assert_eq!(fault.get("number"), &Value::Null);
    let Value::Object(members) = failure(&case, &good, &["--spare-files", "2000"]) else {
        panic!("no object");
    };
    assert!(!members.contains_key("fault"), "{members:?}");
}

#[test]
fn what_is_there_already_is_not_overwritten() {
    let case = Case::empty("intake-there");
    let dump = entry("a", &[LMA, LOV]);
    for name in ["parents.tbl", "reserve.tbl", "lfsck-offline.log"] {
        std::fs::create_dir_all(made(&case)).expect("a directory");
        std::fs::write(made(&case).join(name), b"mine").expect(name);
        let told = take(&case, dump.as_bytes(), b"1 2 3", &[]);
        told.expect_line(74, "this is already there");
        assert_eq!(table(&case, name), b"mine");
        std::fs::remove_dir_all(made(&case)).expect("the case");
    }
    std::fs::create_dir_all(made(&case)).expect("a directory");
    std::fs::write(made(&case).join("notes"), b"mine").expect("notes");
    take(&case, dump.as_bytes(), b"1 2 3", &[]).expect(0);
    assert_eq!(table(&case, "notes"), b"mine");
}

#[test]
fn files_that_cannot_be_read() {
    let case = Case::empty("intake-files");
    let dump = entry("a", &[LMA, LOV]);
    take(&case, dump.as_bytes(), b"1 2 3", &["none"]).expect_line(74, "none: ");
    take(&case, dump.as_bytes(), b"1 2 3", &["."]).expect_line(74, "this is a directory");
    take(&case, dump.as_bytes(), b"1 2 3", &["--reserve", "none"]).expect_line(74, "none: ");
    let told = intake(&case, TOOL.as_ref(), &["dump", "--owners", "none"]);
    told.expect_line(74, "none: ");
    assert!(!made(&case).exists());
}

/// Full tables, one row more than fits, and spare rows that don't fit.
#[test]
fn tables_at_their_limits() {
    let case = Case::empty("intake-limits");
    let dump = |count: usize, line: &str| entry("a", &[LMA, line]).repeat(count);
    let owners = "1 2 3\n".repeat(65_537);
    for (count, line, words) in [
        (
            1025,
            LOV,
            "line 4100 is refused with 37: more than 1024 files; the entry is \"a\"",
        ),
        (
            65_537,
            FID,
            "line 262148 is refused with 37: more than 65536 objects; the entry",
        ),
    ] {
        let text = dump(count, line);
        take(&case, text.as_bytes(), owners.as_bytes(), &[]).expect_line(2, words);
        let spare = ["--spare-files", "1024", "--spare-objects", "65536"];
        let told = take(&case, dump(1, line).as_bytes(), owners.as_bytes(), &spare);
        told.expect_line(2, ".tbl would have 1 row that is used and ");
        assert!(!made(&case).exists());
        let spare = ["--spare-files", "1023", "--spare-objects", "65535"];
        take(&case, dump(1, line).as_bytes(), owners.as_bytes(), &spare).expect(0);
        std::fs::remove_dir_all(made(&case)).expect("the case");
        let text = dump(count - 1, line);
        take(&case, text.as_bytes(), owners.as_bytes(), &[]).expect(2);
        let rows =
            table(&case, "parents.tbl").len() / PARENT + table(&case, "objects.tbl").len() / 46;
        assert_eq!(rows, count - 1);
        std::fs::remove_dir_all(made(&case)).expect("the case");
    }
}

/// A name of a megabyte, a line without end and a dump of zeros are refused or taken, and no more
/// is shown than a person can read.
#[test]
fn very_long_lines() {
    let case = Case::empty("intake-long");
    let name = "n".repeat(1 << 20);
    let dump = entry(&name, &[LMA, LOV]);
    take(&case, dump.as_bytes(), b"1 2 3", &[]).expect(0);
    std::fs::remove_dir_all(made(&case)).expect("the case");
    for dump in [
        entry(&name, &[LMA]),
        name.clone(),
        entry("a", &[&format!("trusted.lov=0x0{}\n", "0".repeat(1 << 20))]),
        format!("# file: a\n{name}\n"),
    ] {
        let told = take(&case, dump.as_bytes(), b"1 2 3", &[]).expect_line(2, "is refused with 3");
        assert!(told.err.len() < 400, "{} bytes", told.err.len());
    }
}

/// Takes the site in with a fault, as `abort:3`.
fn with_fault(case: &Case, fault: String) -> Told {
    let mut command = Command::new(faulty());
    command.current_dir(case.path());
    command.args(["intake", "made", "dump", "--owners", "owners"]);
    command.env("LFSCK_OFFLINE_FAULT", fault);
    command.output().expect("the tool").into()
}

/// Whether there is a case; where there is none, the same intake makes it now. Then it is that of
/// the site, with no other file beside it, and is removed.
fn is_whole(case: &Case) -> bool {
    let checked = on_made(case, &["check"]);
    let whole = checked.status == Some(0);
    if !whole {
        checked.expect(74);
        intake(case, TOOL.as_ref(), &["dump", "--owners", "owners"]).expect(0);
    }
    let tables = (table(case, "parents.tbl"), table(case, "objects.tbl"));
    assert!(tables == (of_site("parents.tbl"), of_site("objects.tbl")));
    let entries = std::fs::read_dir(made(case)).expect("the case");
    let mut names: Vec<_> = entries.map(|it| it.expect("a file").file_name()).collect();
    names.sort_unstable();
    assert_eq!(names, ["objects.tbl", "parents.tbl", "reserve.tbl"]);
    std::fs::remove_dir_all(made(case)).expect("the case");
    whole
}

/// A case is made whole or not at all, also where the tool is killed at an operation, or one fails.
#[test]
fn a_kill_at_any_operation_leaves_a_whole_case_or_none() {
    let case = Case::empty("intake-kill");
    case.write("dump", &of_site("dump.txt"));
    case.write("owners", &of_site("owners.txt"));
    for kind in ["abort", "fail"] {
        let (mut none, mut whole) = (0, 0);
        for number in 1.. {
            let told = with_fault(&case, format!("{kind}:{number}"));
            if told.status == Some(0) {
                assert!(is_whole(&case));
                break;
            }
            assert_eq!(told.status, (kind == "fail").then_some(74), "{told:?}");
            match is_whole(&case) {
                true => whole += 1,
                false => none += 1,
            }
        }
        println!("{kind}: {none} times none, {whole} times a whole case");
        assert!(none > 3 && whole > 3);
    }
}
