//! LinkEAs printed from files and from standard input, raw and in digits, sound and damaged.

use std::fs;
use std::io::Write;
use std::path::Path;
use std::process::{Command, Stdio};

use difftest::{Coverage, Random};
use reference::fid::Fid;
use reference::link::{Fault, Link, Record};

use crate::json::{Value, parse};
use crate::tool::{Case, TOOL, Told};

/// Three records: `a` in ROOT, `bc` in a directory, and `..` in one whose FID shows each byte.
const THREE: &str = "dff1ea110300000053000000000000007856341201020304\
                     001300000002000000070000000100000000\
                     61\
                     001400000002000004010000000a00000005\
                     6263\
                     00140123456789abcdef0102030405060708\
                     2e2e";

/// What is printed of them.
const TOLD: &str = r#"A linkEA of 3 records and 83 bytes, overflow time 305419896, padding 67305985.
  place  parent                                  name
     24  [0x200000007:0x1:0x0]                   "a"
     43  [0x200000401:0xa:0x5]                   "bc"
     63  [0x123456789abcdef:0x1020304:0x5060708] ".."
"#;

fn bytes_of(digits: &str) -> Vec<u8> {
    let pairs = digits.as_bytes().chunks(2);
    let pairs = pairs.map(|pair| str::from_utf8(pair).expect("digits"));
    pairs
        .map(|pair| u8::from_str_radix(pair, 16).expect("digits"))
        .collect()
}

fn three() -> Vec<u8> {
    bytes_of(THREE)
}

/// A linkEA with these names, in directories of their own.
fn named(names: &[&[u8]]) -> Vec<u8> {
    let record = |(id, name): (usize, &&[u8])| Record {
        parent: Fid::new(0x2_0000_0401, id as u32),
        name: name.to_vec(),
    };
    Link {
        time: 0,
        padding: 0,
        records: names.iter().enumerate().map(record).collect(),
    }
    .encode()
}

/// The tool on a file of this content.
fn of_file(case: &Case, content: &[u8], words: &[&str]) -> Told {
    case.write("link", content);
    let mut tool = Command::new(TOOL);
    tool.arg("link").arg(case.path().join("link")).args(words);
    tool.output().expect("the tool").into()
}

/// The tool with this in its standard input.
fn of_input(content: &[u8], words: &[&str]) -> Told {
    let mut tool = Command::new(TOOL);
    tool.arg("link").args(words).stdin(Stdio::piped());
    tool.stdout(Stdio::piped()).stderr(Stdio::piped());
    let mut child = tool.spawn().expect("the tool");
    // It may have heard enough before the end.
    let _ = child.stdin.take().expect("a pipe").write_all(content);
    child.wait_with_output().expect("the tool").into()
}

#[test]
fn three_records_are_printed_from_raw_bytes_and_from_digits() {
    let case = Case::empty("link-forms");
    let dump = format!("# file: a/b\ntrusted.link=0x{THREE}\n\n");
    // A path and attributes in Latin-1, which are no UTF-8.
    let latin = format!("# file: caf\u{e9}\nuser.\u{e9}=\"\u{e9}\"\ntrusted.link=0x{THREE}\n");
    for content in [
        three(),
        format!("0x{THREE}").into_bytes(),
        format!("0X{}\n", THREE.to_uppercase()).into_bytes(),
        format!(" \r\n\t0x{THREE} \r\n\n").into_bytes(),
        format!("trusted.link=0x{THREE}\n").into_bytes(),
        dump.into_bytes(),
        format!("# file: a\ntrusted.fid=0x00\ntrusted.link=0x{THREE}\nuser.x=\"y\"\n").into_bytes(),
        latin.chars().map(|letter| letter as u8).collect(),
    ] {
        for told in [
            of_file(&case, &content, &[]),
            of_input(&content, &["-"]),
            of_input(&content, &["/dev/stdin"]),
            of_input(&content, &["--", "-"]),
        ] {
            let told = told.expect(0);
            assert_eq!((told.out.as_str(), told.err.as_str()), (TOLD, ""));
        }
        assert_eq!(case.read("link"), content);
    }
}

#[test]
fn a_link_to_a_file_is_followed_and_nothing_is_written() {
    let case = Case::empty("link-of-link");
    case.write("raw", &three());
    std::os::unix::fs::symlink("raw", case.path().join("other")).unwrap();
    let before = case.files();
    let mut tool = Command::new(TOOL);
    tool.arg("link").arg(case.path().join("other"));
    let told = Told::from(tool.output().unwrap()).expect(0);
    assert_eq!(told.out, TOLD);
    assert_eq!(case.files(), before);
}

#[test]
fn three_records_are_printed_as_json() {
    let case = Case::empty("link-json");
    let line = concat!(
        r#"{"record_count":3,"total_length":83,"overflow_time":305419896,"padding":67305985,"#,
        r#""records":[{"place":24,"parent":"[0x200000007:0x1:0x0]","name":"a","name_hex":"61"},"#,
        r#"{"place":43,"parent":"[0x200000401:0xa:0x5]","name":"bc","name_hex":"6263"},"#,
        r#"{"place":63,"parent":"[0x123456789abcdef:0x1020304:0x5060708]","name":"..","#,
        r#""name_hex":"2e2e"}]}"#,
        "\n"
    );
    assert_eq!(of_file(&case, &three(), &["--json"]).expect(0).out, line);
    assert_eq!(of_input(&three(), &["--json", "-"]).expect(0).out, line);
}

#[test]
fn one_record_and_none_are_printed() {
    let none = of_input(&named(&[]), &["-"]).expect(0);
    let line = "A linkEA of 0 records and 24 bytes, overflow time 0, padding 0.\n";
    assert_eq!(none.out, line);
    let json = parse(&of_input(&named(&[]), &["-", "--json"]).expect(0).out);
    assert_eq!(json.list("records"), []);
    let one = of_input(&named(&[b"x"]), &["-"]).expect(0);
    let line = "A linkEA of 1 record and 43 bytes, overflow time 0, padding 0.\n";
    assert!(one.out.starts_with(line), "{one:?}");
    assert_eq!(one.out.lines().count(), 3);
}

fn is_printable(letter: char) -> bool {
    letter == '\n' || (' '..='~').contains(&letter)
}

/// Names of every byte, and of characters that steer terminals, turn the direction of writing or
/// cannot be seen.
#[test]
fn no_name_steers_a_terminal() {
    let every: Vec<u8> = (1..=255).filter(|&byte| byte != b'/').collect();
    let names = [
        &every[..],
        b"\x1b]0;title\x07\x1b[2J",
        b"line\nlfsck-offline: line\r",
        "größe\u{1f600}".as_bytes(),
        "a\u{202e}b\u{9b}31mc\u{2066}\u{200b}\u{feff}d".as_bytes(),
        "\u{ad}\u{180e}\u{3164}\u{fe0f}\u{ffff}\u{e0041}\u{10ffff}".as_bytes(),
        b"\xc3\x28",
        b"a\"b\\c",
    ];
    let bytes = named(&names);
    let told = of_input(&bytes, &["-"]).expect(0);
    assert_eq!(told.out.lines().count(), 2 + names.len());
    assert!(told.out.chars().all(is_printable), "{told:?}");
    let last: Vec<&str> = told.out.lines().skip(3).collect();
    assert!(last[0].ends_with(r#" "\x1b]0;title\x07\x1b[2J""#));
    assert!(last[1].ends_with(r#" "line\x0alfsck-offline: line\x0d""#));
    assert!(last[2].ends_with(r#" "gr\xc3\xb6\xc3\x9fe\xf0\x9f\x98\x80""#));
    assert!(last[5].ends_with(r#" "\xc3(""#));
    assert!(last[6].ends_with(r#" "a\"b\\c""#));
    expect_json_of(&bytes, &names);
}

/// In JSON the names stand as text, where they are UTF-8, and in digits.
fn expect_json_of(bytes: &[u8], names: &[&[u8]]) {
    let told = of_input(bytes, &["-", "--json"]).expect(0);
    assert!(told.out.chars().all(is_printable), "{told:?}");
    let json = parse(&told.out);
    assert_eq!(json.list("records").len(), names.len());
    for (record, name) in json.list("records").iter().zip(names) {
        let digits: String = name.iter().map(|byte| format!("{byte:02x}")).collect();
        assert_eq!(record.text("name_hex"), digits);
        let text = str::from_utf8(name).map(str::to_string);
        let text = text.map_or(Value::Null, Value::Text);
        assert_eq!(record.get("name"), &text);
    }
}

/// The line and the JSON of a refusal; gives the line.
fn expect_refused(content: &[u8], words: &str) -> String {
    let line = format!("standard input: the linkEA is refused with 31: {words}");
    let told = of_input(content, &["-"]).expect_line(2, &line);
    let json = of_input(content, &["-", "--json"]).expect(2);
    assert_eq!(json.err, told.err);
    let json = parse(&json.out);
    assert_eq!(json.number("answer"), 31);
    assert_eq!(json.number("status"), 2);
    assert!(json.text("error").starts_with(&line), "{json:?}");
    told.err
}

/// The three records with a byte changed or the end cut off, and what is said of each.
fn conditions() -> [(Vec<u8>, &'static str); 10] {
    let changed = |at: usize, byte: u8| {
        let mut bytes = three();
        bytes[at] = byte;
        bytes
    };
    let cut = |length: usize| three()[..length].to_vec();
    [
        (cut(23), "header: only 23 of its 24 bytes are there"),
        (
            changed(0, 0xde),
            "header, magic: 0x11eaf1de, not 0x11eaf1df",
        ),
        (
            changed(8, 84),
            "header, total length: 84, and there are 83 bytes",
        ),
        (cut(82), "header, total length: 83, and there are 82 bytes"),
        (changed(64, 18), "record at 63, length: 18, below 19"),
        (
            changed(64, 21),
            "record at 63, length: 21, past the end at 83",
        ),
        (changed(42, b'/'), "record at 24, name: a slash at 42"),
        (changed(62, 0), "record at 43, name: a zero byte at 62"),
        (
            changed(4, 2),
            "header, record count: 2, and there are 3 records",
        ),
        (
            changed(4, 4),
            "header, record count: 4, and there are 3 records",
        ),
    ]
}

#[test]
fn each_condition_is_told_with_its_place() {
    for (content, words) in conditions() {
        let end = format!(": {words}\n");
        let line = expect_refused(&content, words);
        // With another magic there is more to say.
        if content.starts_with(&three()[..4]) {
            assert!(line.ends_with(&end), "{line:?}");
        }
        // The same in digits.
        let digits: String = content.iter().map(|byte| format!("{byte:02x}")).collect();
        let told = of_input(format!("0x{digits}\n").as_bytes(), &["-"]).expect(2);
        assert!(told.err.ends_with(&end), "{told:?}");
    }
}

#[test]
fn what_is_neither_raw_nor_digits_is_refused_as_raw() {
    let neither = "; this is neither raw bytes nor one value of 0x and hexadecimal digits\n";
    for (content, words) in [
        (&b""[..], "header: only 0 of its 24 bytes are there"),
        (b"0x123", "header: only 5 of its 24 bytes are there"),
        (
            b"no linkEA, but a text of a few words",
            "header, magic: 0x6c206f6e, not 0x11eaf1df",
        ),
        (
            b"trusted.link=0s3/HqEQAAAAAYAAAAAAAAAA==",
            "header, magic: ",
        ),
        (b"trusted.link=0x00\ntrusted.link=0x00\n", "header, magic: "),
    ] {
        let line = expect_refused(content, words);
        assert!(line.ends_with(neither), "{line:?}");
    }
    // Digits that stand for no bytes are digits.
    let told = of_input(b"0x", &["-"]).expect(2);
    assert!(told.err.ends_with("bytes are there\n"), "{told:?}");
}

/// 300 linkEAs with one or two changes each: the status is the reference's verdict, and the reason
/// one that holds.
#[test]
fn the_verdict_on_damaged_bytes_is_that_of_the_reference() {
    let mut random = Random::for_test("link command");
    let mut met = Coverage::of("statuses", [0, 2]);
    for _ in 0..300 {
        let mut bytes = three();
        for _ in 0..1 + random.below(2) {
            match random.below(6) {
                0 => bytes.truncate(random.below(bytes.len() + 1)),
                1 => bytes.extend([0, 20]),
                _ if bytes.is_empty() => (),
                _ => {
                    let at = random.below(bytes.len());
                    bytes[at] = random.pick(&[0, b'/', 1, 19, 0xff]);
                }
            }
        }
        let told = of_input(&bytes, &["-"]);
        match Link::parse(&bytes) {
            Ok(link) => {
                let told = told.expect(0);
                let lines = 1 + usize::from(!link.records.is_empty()) + link.records.len();
                assert_eq!(told.out.lines().count(), lines, "{told:?}");
                met.met(0);
            }
            Err(faults) => {
                let told = told.expect_line(2, "refused with 31: ");
                let named = |fault: &Fault| told.err.contains(words_of(*fault));
                assert!(faults.iter().any(named), "{faults:?}: {told:?}");
                met.met(2);
            }
        }
    }
    met.require(10);
}

/// What the line says of a condition.
fn words_of(fault: Fault) -> &'static str {
    match fault {
        Fault::ShortHeader => "header: only",
        Fault::Magic => "header, magic:",
        Fault::Total => "header, total length:",
        Fault::RecordShort => "below 19",
        Fault::RecordPastEnd => "the end at",
        Fault::Slash => "a slash at",
        Fault::Zero => "a zero byte at",
        Fault::CountTooSmall | Fault::CountTooLarge => "header, record count:",
    }
}

#[test]
fn many_records_and_long_names_are_printed() {
    let long = vec![b'n'; 65_517];
    let names: Vec<&[u8]> = std::iter::repeat_n(&b"name"[..], 2000)
        .chain([&long[..], b"last"])
        .collect();
    let bytes = named(&names);
    let told = of_input(&bytes, &["-"]).expect(0);
    assert_eq!(told.out.lines().count(), 2 + names.len());
    assert!(told.out.ends_with(" \"last\"\n"));
    let json = parse(&of_input(&bytes, &["-", "--json"]).expect(0).out);
    let records = json.list("records");
    assert_eq!(records.len(), names.len());
    assert_eq!(records[2000].text("name").len(), 65_517);
    let places: Vec<u64> = records
        .iter()
        .map(|record| record.number("place"))
        .collect();
    let link = Link::parse(&bytes).unwrap();
    let expected: Vec<u64> = link.placed().map(|(place, _)| place as u64).collect();
    assert_eq!(places, expected);
}

#[test]
fn more_bytes_than_any_attribute_has_are_refused() {
    let case = Case::empty("link-long");
    let path = case.path().join("link");
    // A long text of digits, and one byte more.
    let mut text = format!("0x{THREE}").into_bytes();
    text.resize(262_144, b'\n');
    assert_eq!(of_file(&case, &text, &[]).expect(0).out, TOLD);
    text.push(b'\n');
    let words = "link: this is longer than 262144 bytes";
    of_file(&case, &text, &[]).expect_line(2, words);
    let json = parse(&of_file(&case, &text, &["--json"]).expect(2).out);
    assert_eq!(json.get("answer"), &Value::Null);
    // Far longer than memory: it must not be read whole.
    let file = fs::File::create(&path).unwrap();
    file.set_len(1 << 40).unwrap();
    let mut tool = Command::new(TOOL);
    let told: Told = tool.arg("link").arg(&path).output().unwrap().into();
    told.expect_line(2, words);
}

#[test]
fn a_file_that_cannot_be_read_is_trouble() {
    let case = Case::empty("link-missing");
    let of = |path: &Path| -> Told {
        let mut tool = Command::new(TOOL);
        tool.arg("link").arg(path).output().unwrap().into()
    };
    let missing = case.path().join("missing");
    of(&missing).expect_line(74, "missing: there is no such file or directory");
    of(case.path()).expect_line(74, "link-missing: this is a directory");
    of(&missing.join("more")).expect_line(74, "there is no such file or directory");
}

/// The sample has a linkEA, in the form that getfattr prints.
#[test]
fn the_sample_has_a_linkea() {
    let case = Case::sample("link-sample");
    let dump = String::from_utf8(case.read("link.hex")).unwrap();
    assert!(
        dump.starts_with("# file: ") && dump.ends_with("\n\n"),
        "{dump}"
    );
    let (_, digits) = dump.trim_end().split_once("\ntrusted.link=0x").unwrap();
    let link = Link::parse(&bytes_of(digits)).unwrap();
    let mut tool = Command::new(TOOL);
    tool.arg("link").arg(case.path().join("link.hex"));
    let told = Told::from(tool.output().unwrap()).expect(0);
    assert_eq!(told.out.lines().count(), 2 + link.records.len());
    // It belongs to no case: whatever becomes of it, the commands go on.
    fs::remove_file(case.path().join("link.hex")).unwrap();
    fs::create_dir(case.path().join("link.hex")).unwrap();
    case.run(&["run", "--create", "--adopt"]).expect(0);
    case.run(&["undo"]).expect(0);
}

#[test]
fn a_file_in_the_place_of_the_sample_s_linkea_stays() {
    let case = Case::empty("link-there");
    case.write("link.hex", b"mine");
    case.run(&["sample"])
        .expect_line(74, "link.hex: this is already there");
    assert_eq!(case.files().len(), 1);
    assert_eq!(case.read("link.hex"), b"mine");
}
