//! The linkEA functions of the library and of the reference on random linkEAs: sound, cut,
//! stretched and damaged in each field, of no and of many records, with short and long names; and
//! on numbers for the writer, with every kind of refusal.

mod change;
mod given;
mod input;
mod seen;

use std::hint::black_box;
use std::time::Instant;

use difftest::Random;
use reference::interface;
use reference::link::{Link, Record};

use change::Change;
use given::Given;
use seen::Seen;

const LINKS: usize = 500_000;

#[test]
fn linkeas_are_read_and_written_alike() {
    let started = Instant::now();
    let mut random = Random::for_test("link");
    let mut seen = Seen::nothing();
    for _ in 0..LINKS {
        let link = input::random_link(&mut random);
        seen.note_shape(&link);
        let change = if random.one_in(3) {
            Change::None
        } else {
            random.pick(&Change::ALL)
        };
        let bytes = change.make(&link, &mut random);
        seen.changes.met(change);
        compare_read(&bytes, &mut random, &mut seen);
        let place = input::random_place(&link, &mut random);
        compare_record(&bytes, place, &mut random, &mut seen);
        match Link::parse(&bytes) {
            Ok(_) => there_and_back(&bytes, &mut seen),
            Err(faults) => seen.note_faults(&faults),
        }
        compare_write(&link, &mut random, &mut seen);
    }
    let took = started.elapsed().as_secs_f64();
    println!("{LINKS} linkEAs in {took:.1} s");
    seen.require();
}

/// More records, and more bytes, than 16 bits count; a few of their places.
#[test]
fn very_many_records_are_read_and_written_alike() {
    let mut random = Random::for_test("many links");
    let mut seen = Seen::nothing();
    let record = input::random_link_of(1, &mut random).records.remove(0);
    let record = Record {
        name: b"n".to_vec(),
        ..record
    };
    let link = Link {
        time: 1,
        padding: 2,
        records: vec![record; 70_000],
    };
    let mut bytes = link.encode();
    let last = bytes.len() as u64 - 19;
    for damaged in [false, true] {
        if damaged {
            let middle = bytes.len() / 2;
            bytes[middle..middle + 19].fill(b'/');
        }
        compare_read(&bytes, &mut random, &mut seen);
        for place in [24, 25, 24 + 19 * 66_000, last - 1, last, last + 19] {
            compare_record(&bytes, place, &mut random, &mut seen);
        }
    }
    for _ in 0..8 {
        compare_write(&link, &mut random, &mut seen);
    }
}

// Comparisons. Each lends the same to both sides and compares the answer and whatever was lent.

fn compare_read(bytes: &[u8], random: &mut Random, seen: &mut Seen) {
    let lent = room_for(4, random);
    let (mut ours, mut theirs) = (lent.clone(), lent);
    let input = bytes.to_vec();
    let answer = lfsck_sys::link_read(black_box(&input), &mut theirs);
    let expected = interface::link_read(bytes, &mut ours);
    assert_eq!((answer, &theirs), (expected, &ours), "read {bytes:02x?}");
    assert!(black_box(&input) == bytes, "read changed {bytes:02x?}");
    seen.read.met(answer);
    if answer == 31 && theirs.len() < 4 {
        seen.order.met("31 before 17 in the header's reader");
    }
}

fn compare_record(bytes: &[u8], place: u64, random: &mut Random, seen: &mut Seen) {
    let lent = room_for(6, random);
    let (mut ours, mut theirs) = (lent.clone(), lent);
    let input = bytes.to_vec();
    let answer = lfsck_sys::link_record(black_box(&input), place, &mut theirs);
    let expected = interface::link_record(bytes, place, &mut ours);
    assert_eq!(
        (answer, &theirs),
        (expected, &ours),
        "record at {place} of {bytes:02x?}"
    );
    assert!(
        black_box(&input) == bytes,
        "record at {place} changed {bytes:02x?}"
    );
    seen.record.met(answer);
    seen.note_place(bytes, place, answer);
    match answer {
        31 if theirs.len() < 6 => seen.order.met("31 before 17 in the record's reader"),
        16 if theirs.len() < 6 => seen.order.met("16 before 17 in the record's reader"),
        _ => (),
    }
}

fn compare_write(link: &Link, random: &mut Random, seen: &mut Seen) {
    let mut given = Given::of(link, random);
    if random.one_in(2) {
        given.damage(random);
    }
    let needed = link.total();
    let destination = {
        let count = around(needed, random);
        random.bytes(count)
    };
    let out = {
        let count = random.pick(&[0, 1, 1, 1, 1, 1, 2, 3]);
        random.numbers(count)
    };
    let answer = write_alike(&given, &destination, &out);
    seen.write.met(answer);
    seen.note_write(&given, destination.len() < needed, out.is_empty(), answer);
}

/// Lets both sides write, and gives the answer.
fn write_alike(given: &Given, destination: &[u8], out: &[u64]) -> u32 {
    let (mut our_bytes, mut their_bytes) = (destination.to_vec(), destination.to_vec());
    let (mut our_out, mut their_out) = (out.to_vec(), out.to_vec());
    let input = given.clone();
    let answer = {
        let input = black_box(&input);
        lfsck_sys::link_write(
            &input.fields,
            &input.records,
            &input.names,
            &mut their_bytes,
            &mut their_out,
        )
    };
    let expected = interface::link_write(
        &given.fields,
        &given.records,
        &given.names,
        &mut our_bytes,
        &mut our_out,
    );
    assert_eq!(
        (answer, &their_bytes, &their_out),
        (expected, &our_bytes, &our_out),
        "write {given:x?}"
    );
    assert!(black_box(&input) == given, "write changed {given:x?}");
    if answer != 0 {
        let untouched = their_bytes == destination && their_out == out;
        assert!(untouched, "refused with {answer}, and written: {given:x?}");
    }
    answer
}

/// A sound linkEA, read record by record from the first place to the end and written again, gives
/// the same bytes; the reference says the same of each step.
fn there_and_back(bytes: &[u8], seen: &mut Seen) {
    let lent = bytes.to_vec();
    let mut fields = [0; 4];
    assert_eq!(lfsck_sys::link_read(black_box(&lent), &mut fields), 0);
    assert_eq!(fields[1], bytes.len() as u64);
    let mut records = Vec::new();
    let mut place = 24;
    for _ in 0..fields[0] {
        let (mut record, mut ours) = ([0; 6], [0; 6]);
        assert_eq!(
            lfsck_sys::link_record(black_box(&lent), place, &mut record),
            0
        );
        // Of very many, the reference is asked for some.
        if fields[0] < 50 || place % 7 == 0 {
            assert_eq!(interface::link_record(bytes, place, &mut ours), 0);
            assert_eq!(record, ours, "record at {place} of {bytes:02x?}");
        }
        records.extend(&record[..5]);
        place = record[5];
    }
    assert_eq!(place, fields[1], "the end of {bytes:02x?}");
    assert_eq!(
        lfsck_sys::link_record(black_box(&lent), place, &mut [0; 6]),
        16
    );
    let (mut written, mut length) = (vec![0xab; bytes.len() + 3], [0]);
    let answer = lfsck_sys::link_write(
        &fields,
        &records,
        black_box(&lent),
        &mut written,
        &mut length,
    );
    assert_eq!((answer, length[0]), (0, fields[1]), "{bytes:02x?}");
    assert!(&written[..bytes.len()] == bytes, "back from {bytes:02x?}");
    assert_eq!(&written[bytes.len()..], [0xab; 3]);
    assert!(black_box(&lent) == bytes, "changed {bytes:02x?}");
    seen.back += 1;
}

/// Fewer places than needed, as many, or more; none of them empty.
fn room_for(needed: usize, random: &mut Random) -> Vec<u64> {
    let count = around(needed, random);
    random.numbers(count)
}

fn around(needed: usize, random: &mut Random) -> usize {
    match random.below(8) {
        0 => random.below(needed),
        1 => needed - 1,
        2 => needed + 1,
        3 => needed + random.below(64),
        _ => needed,
    }
}
