//! What an intake is handed: lists and files at their limits, files of every kind, and paths.

use std::fs::File;
use std::io::Write;
use std::process::{Command, Stdio};

use crate::intake::{FID, LMA, LOV, OWNERS, entry, intake, made, of_site, on_made, table, take};
use crate::json::{Value, parse};
use crate::tool::{Case, TOOL, Told};

/// A list of the most FIDs is taken; one more is refused with its line, and no case is made.
#[test]
fn a_list_of_too_many_fids() {
    let case = Case::empty("intake-many-fids");
    let dump = entry("a", &[LMA, LOV]);
    let most = "# a FID\n0x240000400:7\n".repeat(65_536);
    case.write("list", format!("{most}0x240000400:8\n").as_bytes());
    let words = ["--reserve", "list"];
    let told = take(&case, dump.as_bytes(), b"1 2 3", &words);
    let line = "list: line 131073: more than 65536 FIDs: \"0x240000400:8\"";
    told.expect_line(2, line);
    let words = ["--reserve", "list", "--json"];
    let told = take(&case, dump.as_bytes(), b"1 2 3", &words).expect(2);
    assert_eq!(parse(&told.out).get("fault").number("line"), 131_073);
    assert!(!made(&case).exists());
    case.write("list", most.as_bytes());
    take(&case, dump.as_bytes(), b"1 2 3", &words).expect(0);
}

/// A case directory with two dumps of which the second has the object of the first again.
fn twice(name: &str) -> Case {
    let case = Case::empty(name);
    let first = entry("f", &[LMA, LOV]) + &entry("one\\012", &[LMA, FID]);
    case.write("first", first.as_bytes());
    case.write("second", entry("other \u{e9}", &[LMA, FID]).as_bytes());
    case.write("owners", OWNERS.as_bytes());
    case
}

/// Of a FID that stands twice both entries are told; `check` tells rows alone.
#[test]
fn a_fid_that_stands_twice_is_told_by_both_names() {
    let case = twice("intake-twice");
    let words = ["first", "second", "--owners", "owners"];
    let told = intake(&case, TOOL.as_ref(), &words).expect(2);
    let (fault, from) = (
        "  objects.tbl row 1, self FID [0x200000401:0x1:0x0]: row 0 has it as well (15)\n",
        "      \"other \\xc3\\xa9\", line 1 of second\n      \
         row 0 is \"one\\\\012\", line 5 of first\n",
    );
    let list = "The tables are not sound: 15, a FID twice among used parents, or twice among used \
                objects.\n";
    assert!(
        told.out.ends_with(&format!("{list}{fault}{from}")),
        "{told:?}"
    );
    let told = on_made(&case, &["check"]).expect(2);
    assert_eq!(told.out, format!("{list}{fault}"));
}

#[test]
fn a_fid_that_stands_twice_is_told_to_machines_by_both_names() {
    let case = twice("intake-twice-json");
    let words = ["first", "second", "--owners", "owners", "--json"];
    let told = parse(&intake(&case, TOOL.as_ref(), &words).expect(2).out);
    let [fault] = told.list("faults") else {
        panic!("{told:?}");
    };
    assert_eq!((fault.number("number"), fault.number("row")), (15, 1));
    assert_eq!((fault.text("file"), fault.number("line")), ("second", 1));
    assert_eq!(fault.text("name"), "other \u{e9}");
    assert_eq!(fault.text("name_hex"), "6f7468657220c3a9");
    assert_eq!(fault.number("other_row"), 0);
    let other = (fault.text("other_file"), fault.number("other_line"));
    assert_eq!(other, ("first", 5));
    assert_eq!(fault.text("other_name"), "one\\012");
    assert_eq!(fault.text("other_name_hex"), "6f6e655c303132");
}

/// A fault that is none of two rows has no other row.
#[test]
fn other_faults_have_no_other_row() {
    let case = Case::empty("intake-no-other");
    let dump = entry("a", &[LMA, "trusted.lov=0x00\n"]);
    let told = take(&case, dump.as_bytes(), b"1 2 3", &["--json"]).expect(2);
    let told = parse(&told.out);
    let fault = &told.list("faults")[0];
    assert_eq!(fault.text("name"), "a");
    for name in ["row", "file", "line", "name", "name_hex"] {
        assert_eq!(fault.get(&format!("other_{name}")), &Value::Null, "{name}");
    }
}

/// Who leaves out the directory gets no case in one named `-`.
#[test]
fn standard_input_is_no_directory() {
    let case = Case::empty("intake-dash");
    case.write("owners", OWNERS.as_bytes());
    let mut command = Command::new(TOOL);
    command.current_dir(case.path()).stdin(Stdio::null());
    command.args(["intake", "-", "--owners", "owners"]);
    let told: Told = command.output().expect("the tool").into();
    told.expect_line(
        64,
        "the directory of the case is missing: '-' is standard input",
    );
    assert!(!case.path().join("-").exists());
}

/// The tool with these words, started in the directory of the test.
fn on_directory(case: &Case, words: &[&str]) -> Told {
    let mut command = Command::new(TOOL);
    command.current_dir(case.path()).args(words);
    command
        .stdin(Stdio::null())
        .output()
        .expect("the tool")
        .into()
}

/// Paths with control characters stand in quotes on standard output, all others as they are.
#[test]
fn no_path_steers_a_terminal() {
    let case = twice("intake-paths");
    let steering = "a\u{1b}[2J\n\u{9b}1m";
    let shown = r#""a\x1b[2J\x0a\xc2\x9b1m""#;
    let dump = format!("{steering}.dump");
    std::fs::rename(case.path().join("second"), case.path().join(&dump)).expect("a dump");
    let words = ["first", &dump, "--owners", "owners"];
    let told = on_directory(&case, &[&["intake", steering][..], &words].concat()).expect(2);
    assert!(
        !told
            .out
            .contains(|letter: char| letter.is_control() && letter != '\n')
    );
    let first = format!("A case is in {shown}: 1 file and 2 objects from 2 dumps.\n");
    assert!(told.out.starts_with(&first), "{told:?}");
    let from = "line 1 of \"a\\x1b[2J\\x0a\\xc2\\x9b1m.dump\"\n";
    assert!(told.out.contains(from), "{told:?}");
    let told = on_directory(&case, &["intake", "d \u{e9}\"", "first", "--owners=owners"]);
    let first = "A case is in d \u{e9}\": 1 file";
    assert!(told.out.starts_with(first), "{told:?}");
}

/// The same of a sample's directory, and of the log that a check cannot read.
#[test]
fn no_directory_steers_a_terminal() {
    let case = Case::empty("sample-paths");
    let told = on_directory(&case, &["sample", "b\u{1b}c"]).expect(0);
    let first = r#"A sample case is in "b\x1bc": "#;
    assert!(told.out.starts_with(first), "{told:?}");
    std::fs::write(case.path().join("b\u{1b}c/lfsck-offline.log"), "no log\n").expect("a log");
    let told = on_directory(&case, &["check", "b\u{1b}c"]).expect(0);
    let warning = "\nWarning: b c/lfsck-offline.log: line 1 is no entry of the log.\n";
    assert!(told.out.ends_with(warning), "{told:?}");
}

/// Spare rows that no table has are refused before a file is opened: none of these is there.
#[test]
fn too_many_spare_rows_are_refused_at_once() {
    let case = Case::empty("intake-spare");
    for (spare, words) in [
        (
            "--spare-files=1025",
            "--spare-files 1025: parents.tbl has at most 1024 rows",
        ),
        (
            "--spare-objects=65537",
            "--spare-objects 65537: objects.tbl has at most 65536 rows",
        ),
        (
            "--spare-objects=18446744073709551615",
            "objects.tbl has at most 65536 rows",
        ),
    ] {
        let told = intake(&case, TOOL.as_ref(), &["none", "--owners=none", spare]);
        told.expect_line(2, words);
    }
    let most = ["--spare-files=1024", "--spare-objects=65536"];
    let words = ["/dev/null", "--owners=/dev/null", most[0], most[1]];
    intake(&case, TOOL.as_ref(), &words).expect(0);
}

/// The fault of a dump, told to machines.
fn fault_of(case: &Case, dump: &str) -> Value {
    let told = take(case, dump.as_bytes(), b"1 2 3", &["--json"]).expect(2);
    parse(&told.out).get("fault").clone()
}

/// The bytes that are in hexadecimal digits under a name.
fn digits(value: &Value, name: &str) -> usize {
    value.text(name).len() / 2
}

/// A line and a name of more than 1,024 bytes are cut, and no character with them.
#[test]
fn long_texts_are_cut_between_characters() {
    let case = Case::empty("intake-cut");
    for fill in ["", "x", "xx"] {
        // Of three bytes each, so the cut falls on every byte of one.
        let name = format!("{fill}{}", "\u{20ac}".repeat(400));
        let line = format!("user.{name}");
        let fault = fault_of(&case, &entry(&name, &[LMA, &format!("{line}\n")]));
        let text = fault.text("text");
        assert!(line.starts_with(text) && (1022..=1024).contains(&text.len()));
        assert_eq!(digits(&fault, "text_hex"), text.len());
        let cut = fault.text("name");
        assert!(name.starts_with(cut) && (1014..=1016).contains(&cut.len()));
        assert_eq!(digits(&fault, "name_hex"), cut.len());
        // The entry's first line, where the dump ends too soon.
        let fault = fault_of(&case, &format!("# file: {name}\n"));
        assert_eq!(fault.text("text"), format!("# file: {cut}"));
        // In the check's list.
        let dump = entry(&name, &[LMA, "trusted.lov=0x00\n"]);
        let told = parse(
            &take(&case, dump.as_bytes(), b"1 2 3", &["--json"])
                .expect(2)
                .out,
        );
        assert_eq!(told.list("faults")[0].text("name"), cut);
        std::fs::remove_dir_all(made(&case)).expect("the case");
    }
}

/// Files of 64 and 16 MiB are read, longer ones refused; they have holes for most of their bytes.
#[test]
fn owners_and_lists_that_are_too_long() {
    let case = Case::empty("intake-too-long");
    case.write("dump", entry("a", &[LMA, LOV]).as_bytes());
    case.write("owners", b"1 2 3\n");
    case.write("list", b"# ");
    let grow = |name: &str, length: u64| {
        let file = File::options().write(true).open(case.path().join(name));
        file.and_then(|file| file.set_len(length)).expect(name);
    };
    let words = ["dump", "--owners", "owners", "--reserve", "list"];
    grow("list", (16 << 20) + 1);
    let told = intake(&case, TOOL.as_ref(), &words);
    told.expect_line(2, "list: this is longer than 16777216 bytes");
    grow("owners", (64 << 20) + 1);
    let told = intake(&case, TOOL.as_ref(), &words);
    told.expect_line(2, "owners: this is longer than 67108864 bytes");
    assert!(!made(&case).exists());
    grow("owners", 64 << 20);
    grow("list", 16 << 20);
    intake(&case, TOOL.as_ref(), &words).expect(0);
}

/// A pipe with a name is read like a file, here in pieces of one line.
#[test]
fn a_pipe_with_a_name_is_a_dump() {
    let case = Case::empty("intake-fifo");
    case.write("owners", &of_site("owners.txt"));
    let place = case.path().join("pipe");
    let made = Command::new("mkfifo").arg(&place).status();
    assert!(made.expect("mkfifo").success());
    let writer = std::thread::spawn(move || {
        let mut pipe = File::options().write(true).open(place)?;
        let dump = of_site("dump.txt");
        let mut lines = dump.split_inclusive(|&byte| byte == b'\n');
        lines.try_for_each(|line| pipe.write_all(line))
    });
    intake(&case, TOOL.as_ref(), &["pipe", "--owners", "owners"]).expect(0);
    writer.join().expect("a writer").expect("a whole dump");
    assert!(table(&case, "parents.tbl") == of_site("parents.tbl"));
    assert!(table(&case, "objects.tbl") == of_site("objects.tbl"));
}

/// A mark of the byte order is no part of a dump, and is shown.
#[test]
fn a_byte_order_mark_is_refused() {
    let case = Case::empty("intake-bom");
    let dump = format!("\u{feff}{}", entry("a", &[LMA, LOV]));
    take(&case, dump.as_bytes(), OWNERS.as_bytes(), &[]).expect_line(
        2,
        "dump: line 1 is refused with 33: no entry is open, and this line begins none \
         ('# file:'): \"\\xef\\xbb\\xbf# file: a\"",
    );
    assert!(!made(&case).exists());
}

/// A second dump that is missing, is a directory or cannot be read leaves no case of the first.
#[test]
fn a_second_dump_that_cannot_be_read() {
    let case = Case::empty("intake-second-dump");
    let dump = entry("a", &[LMA, LOV]);
    // The tool's own memory can be opened, and its first byte is not there to be read.
    for (second, words) in [
        ("none", "none: "),
        (".", ".: this is a directory"),
        ("/proc/self/mem", "/proc/self/mem: "),
    ] {
        let told = take(&case, dump.as_bytes(), OWNERS.as_bytes(), &[second]);
        told.expect_line(74, words);
        assert!(!made(&case).exists(), "{second}");
    }
    take(&case, dump.as_bytes(), OWNERS.as_bytes(), &[]).expect(0);
}

/// The same dump twice is read twice: every FID of it stands twice, and is told by its name.
#[test]
fn the_same_dump_twice() {
    let case = Case::empty("intake-same");
    let dump = entry("a", &[LMA, LOV]) + &entry("b", &[LMA, FID]);
    let told = take(
        &case,
        dump.as_bytes(),
        "1 2 3\n".repeat(4).as_bytes(),
        &["dump"],
    );
    assert_eq!(
        told.expect(2).out,
        "A case is in made: 2 files and 2 objects from 2 dumps.\n\
         Spare rows: 0 for files, 0 for objects. FIDs in reserve: 0.\n\
         The tables are not sound: 15, a FID twice among used parents, or twice among used \
         objects.\n  \
         parents.tbl row 1, self FID [0x200000401:0x1:0x0]: row 0 has it as well (15)\n      \
         \"a\", line 1 of dump\n      \
         row 0 is \"a\", line 1 of dump\n  \
         objects.tbl row 1, self FID [0x200000401:0x1:0x0]: row 0 has it as well (15)\n      \
         \"b\", line 5 of dump\n      \
         row 0 is \"b\", line 5 of dump\n"
    );
}

#[test]
fn a_directory_is_no_owners_file_and_no_list() {
    let case = Case::empty("intake-owners-directory");
    let dump = entry("a", &[LMA, LOV]);
    case.write("dump", dump.as_bytes());
    let told = intake(&case, TOOL.as_ref(), &["dump", "--owners", "."]);
    told.expect_line(74, ".: this is a directory");
    let told = take(&case, dump.as_bytes(), b"1 2 3", &["--reserve", "."]);
    told.expect_line(74, ".: this is a directory");
    assert!(!made(&case).exists());
}
