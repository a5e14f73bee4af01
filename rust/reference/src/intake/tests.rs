use super::*;
use crate::interface::{Feeding, STATE_BYTES};

/// The self FID [0x200000401:0x1:0x0], after 8 bytes of marks.
const LMA: &str = "trusted.lma=0x01000000020000000104000002000000\
                   0100000000000000\n";
/// A claim on slot 2 of [0x200000401:0x1:0x0].
const FID: &str = "trusted.fid=0x01040000020000000100000002000000\n";
/// The same claim in the older form, with an object id and a sequence behind it.
const OLD_FID: &str = "trusted.fid=0x01040000020000000100000002000000\
                       aabbccddeeff00112233445566778899\n";
/// Five bytes that are no layout.
const LOV: &str = "trusted.lov=0xd00bd10bff\n";
const OWNERS: &str = "7 8 9\n1 2 3\n4 5 6";

/// Tables of two rows each, the unused ones filled with what no rule speaks of.
fn tables() -> (Vec<u8>, Vec<u8>) {
    let mut parents = vec![0xab; 2 * PARENT_BYTES];
    let mut objects = vec![0xcd; 2 * OBJECT_BYTES];
    parents.chunks_mut(PARENT_BYTES).for_each(|row| row[0] = 0);
    objects.chunks_mut(OBJECT_BYTES).for_each(|row| row[0] = 0);
    (parents, objects)
}

/// The answer and the line of a dump, with tables of two unused rows each.
fn told(dump: &str, owners: &str) -> (u32, u64) {
    let (mut parents, mut objects) = tables();
    let read = read(
        dump.as_bytes(),
        owners.as_bytes(),
        &mut parents,
        &mut objects,
    );
    read.map_or_else(|fault| (fault.answer, fault.line), |()| (0, 0))
}

/// An entry of these lines.
fn entry(lines: &[&str]) -> String {
    ["# file: a\n", &lines.concat(), "\n"].concat()
}

fn row(bytes: &[&[u8]]) -> Vec<u8> {
    bytes.concat()
}

const SELF: [u8; 16] = [1, 4, 0, 0, 2, 0, 0, 0, 1, 0, 0, 0, 0, 0, 0, 0];
const CLAIM: [u8; 16] = [1, 4, 0, 0, 2, 0, 0, 0, 1, 0, 0, 0, 2, 0, 0, 0];

#[test]
fn a_parent_and_an_object_fill_their_rows() {
    let dump = entry(&[LMA, LOV]) + &entry(&["trusted.link=\n", FID, LMA]);
    let (mut parents, mut objects) = tables();
    let read = read(
        dump.as_bytes(),
        OWNERS.as_bytes(),
        &mut parents,
        &mut objects,
    );
    assert_eq!(read, Ok(()));
    let layout = [0xd0, 0x0b, 0xd1, 0x0b, 0xff];
    let file = row(&[&[1], &SELF, &[7, 0, 0, 0, 8, 0, 0, 0, 5, 0], &layout]);
    assert_eq!(&parents[..32], file);
    assert!(parents[32..PARENT_BYTES].iter().all(|&byte| byte == 0xab));
    let owner = [3, 0, 0, 0, 1, 0, 0, 0, 2, 0, 0, 0];
    assert_eq!(&objects[..46], row(&[&[1], &SELF, &owner, &CLAIM, &[0]]));
    let (parents_before, objects_before) = tables();
    assert_eq!(parents[PARENT_BYTES..], parents_before[PARENT_BYTES..]);
    assert_eq!(objects[OBJECT_BYTES..], objects_before[OBJECT_BYTES..]);
}

#[test]
fn of_the_older_form_only_the_parent_counts() {
    let (mut parents, mut objects) = tables();
    let (dump, old) = (entry(&[LMA, FID]), entry(&[LMA, OLD_FID]));
    let mut older = objects.clone();
    assert_eq!(
        read(dump.as_bytes(), b"1 2 3", &mut parents, &mut objects),
        Ok(())
    );
    assert_eq!(
        read(old.as_bytes(), b"1 2 3", &mut parents, &mut older),
        Ok(())
    );
    assert_eq!(objects, older);
}

// Point 1: pieces mean what they make together.

#[test]
fn what_stands_after_some_bytes_is_what_their_lines_say() {
    let dumps = [
        entry(&[LMA, LOV]) + &entry(&[FID, LMA]) + "# file: b",
        entry(&[LMA, LOV]) + &entry(&[FID]),
        entry(&[LMA, FID, LMA]),
        "# file: a\nuser.x\n\n".to_string(),
    ];
    for dump in &dumps {
        let whole = Reading::of(dump.as_bytes(), OWNERS.as_bytes());
        for bytes in 0..=dump.len() {
            let part = Reading::of(&dump.as_bytes()[..bytes], OWNERS.as_bytes());
            let lines = whole.lines.iter().filter(|line| line.end <= bytes);
            assert!(part.lines.iter().eq(lines), "{bytes} bytes of {dump:?}");
            let fault = whole.fault.clone().filter(|fault| fault.end <= bytes);
            assert_eq!(part.fault, fault, "{bytes} bytes of {dump:?}");
            if fault.is_none() {
                assert_eq!(part.unclosed(bytes), whole.unclosed(bytes));
            }
        }
    }
}

/// Feeds a dump in pieces of so many bytes; the last answer, the end's, and the tables.
fn fed(dump: &str, size: usize) -> (u32, u32, u64, Vec<u8>, Vec<u8>) {
    let (mut parents, mut objects) = tables();
    let mut feeding = Feeding::of(dump.as_bytes(), OWNERS.as_bytes());
    let (mut answer, mut out) = (0, [0]);
    for piece in dump.as_bytes().chunks(size) {
        answer = feeding.feed(
            STATE_BYTES,
            piece.len(),
            OWNERS.len(),
            &mut parents,
            &mut objects,
            &mut out,
        );
    }
    let end = feeding.end(STATE_BYTES, &mut out);
    (answer, end, out[0], parents, objects)
}

#[test]
fn every_size_of_pieces_gives_the_same() {
    for dump in [
        entry(&[LMA, LOV]) + &entry(&[FID, LMA]),
        entry(&[LMA, LOV]) + &entry(&[FID, LMA]) + "# file: b\ntrusted.x",
        entry(&[LMA, LOV]) + &entry(&[LOV, LMA]) + &entry(&[LMA, LOV]),
        entry(&[LMA, LOV]) + &entry(&[FID]) + &entry(&[LMA, LOV]),
    ] {
        let whole = fed(&dump, dump.len());
        for size in 1..dump.len() {
            assert_eq!(fed(&dump, size), whole, "{size} bytes of {dump:?}");
        }
        let (mut parents, mut objects) = tables();
        let owners = OWNERS.as_bytes();
        let read = read(dump.as_bytes(), owners, &mut parents, &mut objects);
        let (answer, line) = read.map_or_else(|fault| (fault.answer, fault.line), |()| (0, 0));
        assert_eq!((whole.1, whole.2), (answer, line), "{dump:?}");
        assert_eq!((&whole.3, &whole.4), (&parents, &objects), "{dump:?}");
    }
}

// Point 2: the first fault stops.

#[test]
fn after_a_fault_nothing_changes_and_the_answer_stays() {
    let dump = entry(&[LMA]) + &entry(&[LMA, LOV]);
    let (mut parents, mut objects) = tables();
    let before = (parents.clone(), objects.clone());
    let mut feeding = Feeding::of(dump.as_bytes(), OWNERS.as_bytes());
    let first = entry(&[LMA]).len();
    for bytes in [first, dump.len() - first, 0] {
        let mut out = [9, 9];
        let answer = feeding.feed(
            STATE_BYTES,
            bytes,
            OWNERS.len(),
            &mut parents,
            &mut objects,
            &mut out,
        );
        assert_eq!((answer, out), (NO_KIND, [3, 9]));
        let mut out = [9, 9];
        assert_eq!(feeding.end(STATE_BYTES, &mut out), NO_KIND);
        assert_eq!(out, [3, 9]);
    }
    assert_eq!((parents, objects), before);
}

#[test]
fn the_first_fault_in_reading_order_is_told_and_earlier_rows_stand() {
    let good = entry(&[LMA, LOV]);
    assert_eq!(told(&(good.clone() + &entry(&[LMA])), OWNERS), (36, 7));
    assert_eq!(told(&(entry(&[LMA]) + "user.\n"), OWNERS), (36, 3));
    let (mut parents, mut objects) = tables();
    let dump = good + &entry(&[FID]);
    let fault = read(
        dump.as_bytes(),
        OWNERS.as_bytes(),
        &mut parents,
        &mut objects,
    );
    assert_eq!(fault.map_err(|fault| fault.answer), Err(NO_SELF));
    assert_eq!((parents[0], objects[0]), (1, 0));
}

// Point 3: the lines that are good.

#[test]
fn the_rest_of_a_file_line_is_not_examined() {
    for first in [
        "# file:",
        "# file:x",
        "# file: /a=0x\\012 \r\t",
        "# file:\0é",
    ] {
        let dump = format!("{first}\n{LMA}{LOV}\n");
        assert_eq!(told(&dump, OWNERS), (0, 0), "{first:?}");
    }
}

#[test]
fn all_other_lines_are_bad() {
    for first in [
        "\n",
        "\r\n",
        "# fil: a\n",
        "#file: a\n",
        " # file: a\n",
        "# File: a\n",
        "trusted.x\n",
        "user.trusted.x\n",
        LMA,
    ] {
        let dump = format!("{first}{}", entry(&[LMA, LOV]));
        assert_eq!(told(&dump, OWNERS), (33, 1), "{first:?}");
        let dump = format!("{}{first}", entry(&[LMA, LOV]));
        assert_eq!(told(&dump, OWNERS), (33, 5), "{first:?}");
    }
    for line in [
        "\r\n",
        "user.x=0x00\n",
        "trusted\n",
        "Trusted.x\n",
        "# owner: a\n",
        "# file: b\n",
        " \n",
        "security.x\n",
    ] {
        let dump = entry(&[LMA, line, LOV]);
        assert_eq!(told(&dump, OWNERS), (33, 3), "{line:?}");
    }
}

#[test]
fn a_carriage_return_is_a_byte_like_others() {
    let skipped = entry(&[LMA, "trusted.other=0x00\r\n", LOV]);
    assert_eq!(told(&skipped, OWNERS), (0, 0));
    let digits = LMA.replace('\n', "\r\n");
    assert_eq!(told(&entry(&[&digits, LOV]), OWNERS), (33, 2));
    assert_eq!(told("# file: a\r\n\r\n", OWNERS), (33, 2));
}

// Point 4: attributes and values.

#[test]
fn other_attributes_are_skipped_unexamined() {
    for line in [
        "trusted.\n",
        "trusted.=0xzz\n",
        "trusted.lo\n",
        "trusted.lovx=0x0\n",
        "trusted.lov.old=0x0\n",
        "trusted.LOV=0x0\n",
        "trusted. lov=0x0\n",
        "trusted.fi=\"a\"\n",
        "trusted.hsm\n",
        "trusted.lov \n",
        "trusted.lov\r=0x\n",
    ] {
        assert_eq!(
            told(&entry(&[line, LMA, line, LOV]), OWNERS),
            (0, 0),
            "{line:?}"
        );
    }
}

#[test]
fn a_value_is_0x_and_an_even_number_of_digits() {
    for value in [
        "", "=", "=0", "=0X00", "=x00", "=00", "=0x0", "=0x000", "=0x0g", "=0xG0", "=0x 0",
        "=0x00 ", "=\"a\"", "=0sAAAA", "==0x00", "=0x00\r", "=0x/0", "=0x0:", "=0x@0", "=0x0`",
    ] {
        let line = format!("trusted.lov{value}\n");
        assert_eq!(told(&entry(&[LMA, &line]), OWNERS), (33, 3), "{value:?}");
    }
    for value in [
        "=0x",
        "=0x00",
        "=0xfF",
        "=0xFf",
        "=0xABCDEFabcdef0123456789",
    ] {
        let line = format!("trusted.lov{value}\n");
        assert_eq!(told(&entry(&[LMA, &line]), OWNERS), (0, 0), "{value:?}");
    }
}

#[test]
fn digits_of_both_cases_are_the_same() {
    let (lower, upper) = (LOV.to_string(), LOV.replace("d00bd10bff", "D00Bd10bFF"));
    let row = |line: &str| {
        let (mut parents, mut objects) = tables();
        let dump = entry(&[LMA, line]);
        let owners = OWNERS.as_bytes();
        assert_eq!(
            read(dump.as_bytes(), owners, &mut parents, &mut objects),
            Ok(())
        );
        parents
    };
    assert_eq!(row(&lower), row(&upper));
}

#[test]
fn lengths_of_values() {
    let line = |name: &str, bytes: usize| format!("trusted.{name}=0x{}\n", "5a".repeat(bytes));
    for bytes in (0..=40).chain([ROOM - 1, ROOM, ROOM + 1, 70_000]) {
        let lma = told(&entry(&[&line("lma", bytes), LOV]), OWNERS);
        let fid = told(&entry(&[LMA, &line("fid", bytes)]), OWNERS);
        let lov = told(&entry(&[LMA, &line("lov", bytes)]), OWNERS);
        assert_eq!(lma, if bytes == 24 { (0, 0) } else { (33, 2) }, "{bytes}");
        let good = bytes == 16 || bytes == 32;
        assert_eq!(fid, if good { (0, 0) } else { (33, 3) }, "{bytes}");
        assert_eq!(lov, if bytes > ROOM { (37, 4) } else { (0, 0) }, "{bytes}");
    }
}

// Points 5 and 6: each number alone, and with a higher one.

#[test]
fn bad_owners_alone_and_with_the_others() {
    let full = (entry(&[LMA, LOV]) + &entry(&[LMA, LOV])).repeat(2);
    for bad in ["", "\n", "1 2\n", "x"] {
        assert_eq!(told(&entry(&[LMA, LOV]), bad), (33, 4), "alone {bad:?}");
        assert_eq!(told(&entry(&[LOV]), bad), (33, 3), "35, {bad:?}");
        assert_eq!(told(&entry(&[LMA]), bad), (33, 3), "36, {bad:?}");
        let long = format!("trusted.lov=0x{}\n", "00".repeat(ROOM + 1));
        assert_eq!(told(&entry(&[LMA, &long]), bad), (33, 4), "37, {bad:?}");
    }
    assert_eq!(told(&full, "1 2 3\n1 2 3\nx"), (33, 12), "37, no row");
    assert_eq!(told(&full, "1 2 3\n1 2 3\n1 2 3\n"), (37, 12));
}

#[test]
fn a_bad_line_alone_and_with_the_others() {
    // The second of its kind, and bad.
    for line in ["trusted.lma=0x00\n", "trusted.lma=\n", "trusted.lma\n"] {
        assert_eq!(told(&entry(&[LMA, line]), OWNERS), (33, 3), "{line:?}");
    }
    for line in ["trusted.fid=0x00\n", "trusted.fid=0x0\n"] {
        assert_eq!(told(&entry(&[FID, line]), OWNERS), (33, 3), "{line:?}");
    }
    let odd = "trusted.lov=0x0\n";
    assert_eq!(told(&entry(&[LOV, odd]), OWNERS), (33, 3));
}

#[test]
fn one_of_the_three_twice() {
    for (once, again) in [(LMA, LMA), (FID, OLD_FID), (LOV, "trusted.lov=0x\n")] {
        assert_eq!(told(&entry(&[once, again]), OWNERS), (34, 3));
        assert_eq!(told(&entry(&[again, once]), OWNERS), (34, 3));
        // Also where the entry would have 35, 36 or 37 when it closes.
        assert_eq!(told(&entry(&[once, again, FID, LOV]), OWNERS), (34, 3));
    }
    let long = format!("trusted.lov=0x{}\n", "00".repeat(ROOM + 1));
    assert_eq!(told(&entry(&[&long, &long]), OWNERS), (34, 3));
    // In two entries it is no repeat.
    assert_eq!(told(&entry(&[LMA, LOV]).repeat(2), OWNERS), (0, 0));
}

#[test]
fn no_self_fid_alone_and_with_the_others() {
    assert_eq!(told(&entry(&[LOV]), OWNERS), (35, 3));
    assert_eq!(told(&entry(&[FID]), OWNERS), (35, 3));
    assert_eq!(told(&entry(&[]), OWNERS), (35, 2));
    assert_eq!(told(&entry(&[LOV, FID]), OWNERS), (35, 4));
    let long = format!("trusted.lov=0x{}\n", "00".repeat(ROOM + 1));
    assert_eq!(told(&entry(&[&long]), OWNERS), (35, 3));
    let full = entry(&[LMA, FID]).repeat(2) + &entry(&[FID]);
    assert_eq!(told(&full, OWNERS), (35, 11));
}

#[test]
fn neither_kind_or_both_alone_and_with_a_row_that_does_not_fit() {
    assert_eq!(told(&entry(&[LMA]), OWNERS), (36, 3));
    assert_eq!(told(&entry(&[LMA, LOV, FID]), OWNERS), (36, 5));
    assert_eq!(
        told(&entry(&[LMA, "trusted.lov=0x\n", FID]), OWNERS),
        (36, 5)
    );
    let long = format!("trusted.lov=0x{}\n", "00".repeat(ROOM + 1));
    assert_eq!(told(&entry(&[LMA, &long, FID]), OWNERS), (36, 5));
    let full = entry(&[LMA, FID]).repeat(2) + &entry(&[LMA]);
    assert_eq!(told(&full, OWNERS), (36, 11));
}

#[test]
fn a_row_that_does_not_fit() {
    let owners = "1 2 3\n".repeat(3);
    assert_eq!(told(&entry(&[LMA, LOV]).repeat(3), &owners), (37, 12));
    assert_eq!(told(&entry(&[LMA, FID]).repeat(3), &owners), (37, 12));
    let two = entry(&[LMA, LOV]).repeat(2) + &entry(&[LMA, FID]);
    assert_eq!(told(&two, &owners), (0, 0));
    let long = format!("trusted.lov=0x{}\n", "00".repeat(ROOM + 1));
    assert_eq!(told(&entry(&[LMA, &long]), OWNERS), (37, 4));
}

#[test]
fn all_numbers_that_apply_to_a_line_are_listed() {
    let long = format!("trusted.lov=0x{}\n", "00".repeat(ROOM + 1));
    let bad = "trusted.lma=0x00\n";
    for (lines, owners, numbers) in [
        (&[LMA, LOV][..], "", &[33][..]),
        (&[LMA, bad], OWNERS, &[33, 34]),
        (&[bad], OWNERS, &[33]),
        (&[LMA, LMA], OWNERS, &[34]),
        (&[&long, FID], "", &[33, 35, 36, 37]),
        (&[&long, FID], OWNERS, &[35, 36, 37]),
        (&[LMA, &long, FID], OWNERS, &[36, 37]),
        (&[LMA, &long], OWNERS, &[37]),
        (&[], OWNERS, &[35, 36]),
        (&[LOV], OWNERS, &[35]),
        (&[LMA], OWNERS, &[36]),
    ] {
        let reading = Reading::of(entry(lines).as_bytes(), owners.as_bytes());
        let fault = reading.fault.expect("a fault");
        let all: Vec<u32> = [fault.answer].into_iter().chain(fault.higher).collect();
        assert_eq!(all, numbers, "{lines:?}");
    }
}

// Point 7: the end.

#[test]
fn an_open_entry_or_an_unfinished_line_at_the_end() {
    let good = entry(&[LMA, LOV]);
    assert_eq!(told("", OWNERS), (0, 0));
    assert_eq!(told(&good, OWNERS), (0, 0));
    assert_eq!(told("#", OWNERS), (33, 1));
    assert_eq!(told("# file: a", OWNERS), (33, 1));
    assert_eq!(told("# file: a\n", OWNERS), (33, 1));
    assert_eq!(told(&format!("{good}x"), OWNERS), (33, 5));
    assert_eq!(told(&format!("{good}# file: b\n{LMA}"), OWNERS), (33, 5));
    assert_eq!(told(&format!("{good}# file: b\n{LMA}x"), OWNERS), (33, 5));
    assert_eq!(told(&format!("{good}# file: b\n{LMA}x\n"), OWNERS), (33, 7));
    let open = good.trim_end_matches('\n');
    assert_eq!(told(&format!("{open}\n"), OWNERS), (33, 1));
}

// Points 8 and 9: rows.

#[test]
fn the_first_unused_row_and_no_other() {
    let (mut parents, mut objects) = tables();
    parents[0] = 1;
    objects[0] = 1;
    let (files, others) = (parents.clone(), objects.clone());
    let dump = entry(&[LMA, LOV]) + &entry(&[LMA, FID]);
    let owners = OWNERS.as_bytes();
    assert_eq!(
        read(dump.as_bytes(), owners, &mut parents, &mut objects),
        Ok(())
    );
    assert_eq!(parents[..PARENT_BYTES], files[..PARENT_BYTES]);
    assert_eq!(objects[..OBJECT_BYTES], others[..OBJECT_BYTES]);
    assert_eq!((parents[PARENT_BYTES], objects[OBJECT_BYTES]), (1, 1));
    assert_eq!(objects[2 * OBJECT_BYTES - 1], 0, "fresh");
}

#[test]
fn what_the_check_refuses_goes_in() {
    let zero = |name: &str, bytes: usize| format!("trusted.{name}=0x{}\n", "00".repeat(bytes));
    let dump = entry(&[&zero("lma", 24), &zero("lov", 3)]).repeat(2)
        + &entry(&[&zero("lma", 24), &zero("fid", 16)]);
    assert_eq!(told(&dump, "0 0 0\n0 0 0\n0 0 4294967295\n"), (0, 0));
}

// Point 10: owners.

#[test]
fn good_owners_lines() {
    for good in [
        "0 0 0",
        "1 2 3\n",
        "4294967295 4294967295 4294967295",
        "00000000000000000000001 02 3\n",
        "1 2 3\nrubbish",
    ] {
        assert_eq!(told(&entry(&[LMA, LOV]), good), (0, 0), "{good:?}");
        assert_eq!(told(&entry(&[LMA, FID]), good), (0, 0), "{good:?}");
    }
}

#[test]
fn bad_owners_lines() {
    for bad in [
        "",
        "\n",
        "1",
        "1 2",
        "1 2 ",
        "1 2 \n",
        " 1 2 3",
        "1 2 3 ",
        "1  2 3",
        "1 2 3 4",
        "1\t2 3",
        "1 2 3\r\n",
        "-1 2 3",
        "+1 2 3",
        "1 2 x",
        "1 2 0x3",
        "4294967296 2 3",
        "1 4294967296 3",
        "1 2 4294967296",
        "1 2 18446744073709551617",
        "1 2 99999999999999999999999999",
        "1 2 3\0",
        "\n1 2 3",
        "1\n2\n3",
    ] {
        assert_eq!(told(&entry(&[LMA, LOV]), bad), (33, 4), "{bad:?}");
        assert_eq!(told(&entry(&[LMA, FID]), bad), (33, 4), "{bad:?}");
    }
}

#[test]
fn each_entry_takes_the_next_owners_line() {
    let two = entry(&[LMA, LOV]).repeat(2);
    assert_eq!(told(&two, "1 2 3\n4 5 6"), (0, 0));
    assert_eq!(told(&two, "1 2 3\n4 5 6\n\n"), (0, 0));
    assert_eq!(told(&two, "1 2 3\n"), (33, 8));
    assert_eq!(told(&two, "1 2 3"), (33, 8));
    assert_eq!(told(&two, "1 2 3\n\n4 5 6"), (33, 8));
    assert_eq!(told(&two, "1 2 3\n4 5"), (33, 8));
}

// Point 11: what is lent.

/// The answer of a call on the dump of one parent, of which the closing line is left.
fn lent(change: impl FnOnce(&mut Lent)) -> u32 {
    let dump = entry(&[LMA, LOV]).repeat(2);
    let (parents, objects) = tables();
    let mut lent = Lent {
        state: STATE_BYTES,
        piece: dump.len() / 2,
        owners: OWNERS.len(),
        parents,
        objects,
        out: vec![0],
    };
    let mut feeding = Feeding::of(dump.as_bytes(), OWNERS.as_bytes());
    assert_eq!(lent.feed(&mut feeding), 0);
    change(&mut lent);
    let answer = lent.feed(&mut feeding);
    if matches!(answer, 11 | 16 | 17) {
        assert_eq!(feeding.fed(), dump.len() / 2, "reading can go on");
    }
    answer
}

struct Lent {
    state: usize,
    piece: usize,
    owners: usize,
    parents: Vec<u8>,
    objects: Vec<u8>,
    out: Vec<u64>,
}

impl Lent {
    fn feed(&mut self, feeding: &mut Feeding) -> u32 {
        feeding.feed(
            self.state,
            self.piece,
            self.owners,
            &mut self.parents,
            &mut self.objects,
            &mut self.out,
        )
    }
}

#[test]
fn refusals_of_what_is_lent_come_in_their_order() {
    assert_eq!(STATE_BYTES, 48_256);
    assert_eq!(lent(|_| ()), 0);
    assert_eq!(lent(|lent| lent.piece = 65_537), 11);
    assert_eq!(lent(|lent| lent.parents.truncate(1)), 11);
    assert_eq!(lent(|lent| lent.objects.push(0)), 11);
    assert_eq!(lent(|lent| lent.objects[0] = 2), 11);
    assert_eq!(lent(|lent| lent.parents[PARENT_BYTES] = 2), 11);
    assert_eq!(lent(|lent| lent.parents.resize(1025 * PARENT_BYTES, 0)), 11);
    assert_eq!(lent(|lent| lent.state -= 1), 16);
    assert_eq!(lent(|lent| lent.state += 1), 16);
    assert_eq!(lent(|lent| lent.owners = 5), 16);
    assert_eq!(lent(|lent| lent.out.clear()), 17);
    assert_eq!(
        lent(|lent| {
            lent.out.clear();
            lent.state = 0;
        }),
        16
    );
    assert_eq!(
        lent(|lent| {
            lent.state = 0;
            lent.objects[0] = 2;
        }),
        11
    );
    // A fresh mark of an unused row is not looked at; of a used one it is.
    assert_eq!(lent(|lent| lent.objects[45] = 2), 0);
    assert_eq!(
        lent(|lent| {
            lent.objects[0] = 1;
            lent.objects[45] = 2;
        }),
        11
    );
}

#[test]
fn the_end_is_asked_and_changes_nothing() {
    let dump = entry(&[LMA, LOV]);
    let mut feeding = Feeding::of(dump.as_bytes(), OWNERS.as_bytes());
    let (mut parents, mut objects) = tables();
    let mut out = [0];
    for bytes in [10, dump.len() - 10] {
        let answer = feeding.feed(
            STATE_BYTES,
            bytes,
            OWNERS.len(),
            &mut parents,
            &mut objects,
            &mut out,
        );
        assert_eq!(answer, 0);
        let expected = if bytes == 10 { (33, 1) } else { (0, 0) };
        let mut line = [0];
        assert_eq!((feeding.end(STATE_BYTES, &mut line), line[0]), expected);
        assert_eq!(feeding.end(STATE_BYTES - 1, &mut []), 16);
        assert_eq!(feeding.end(STATE_BYTES, &mut []), 17);
    }
}
