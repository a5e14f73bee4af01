//! What is lent and is none: 11, 16 and 17 in this order, and nothing changes.

use difftest::Random;
use difftest::dumps::{Dump, Trait};
use numbers::intake::{MOST_PIECE, STATE};
use numbers::{object, parent};

/// A good dump of several entries, and the state after it.
fn taken_in() -> (Dump, Vec<u8>) {
    let mut random = Random::for_test("what is lent");
    let dump = loop {
        let dump = Dump::good(&mut random);
        if dump.traits.contains(&Trait::Several) {
            break dump;
        }
    };
    let mut state = vec![0; STATE];
    let (mut parents, mut objects) = (dump.parents.clone(), dump.objects.clone());
    let answer = lfsck_sys::intake_feed(
        &mut state,
        &dump.text,
        &dump.owners,
        &mut parents,
        &mut objects,
        &mut [0],
    );
    assert_eq!(answer, 0);
    (dump, state)
}

/// One or more of six things are wrong: the lowest number is given.
#[test]
fn refusals_come_in_their_order() {
    let (dump, state) = taken_in();
    for wrong in 1..1 << 6 {
        let is = |thing: u32| wrong & 1 << thing != 0;
        let piece = vec![b'\n'; if is(0) { MOST_PIECE + 1 } else { 0 }];
        let mut objects = dump.objects.clone();
        objects.extend(is(1).then_some(0));
        let mut state = state[..STATE - usize::from(is(2))].to_vec();
        if is(3) {
            state.fill(255);
        }
        let owners = if is(4) { &b""[..] } else { &dump.owners };
        let mut out = vec![7; usize::from(!is(5))];
        let mut parents = dump.parents.clone();
        let before = (state.clone(), parents.clone(), objects.clone(), out.clone());
        let answer = lfsck_sys::intake_feed(
            &mut state,
            &piece,
            owners,
            &mut parents,
            &mut objects,
            &mut out,
        );
        let expected = match wrong {
            wrong if wrong & 0b11 != 0 => 11,
            wrong if wrong & 0b1_1100 != 0 => 16,
            _ => 17,
        };
        assert_eq!(answer, expected, "{wrong:06b}");
        let end = lfsck_sys::intake_end(&state, &mut out);
        let expected = match (is(2) || is(3), is(5)) {
            (true, _) => 16,
            (false, true) => 17,
            (false, false) => 0,
        };
        assert_eq!(end, expected, "{wrong:06b}");
        assert!(before == (state, parents, objects, out), "{wrong:06b}");
    }
}

/// A table of unused rows.
fn unused(rows: usize, size: usize) -> Vec<u8> {
    vec![0; rows * size]
}

/// A table of two rows in which one byte is this.
fn with(size: usize, at: usize, byte: u8) -> Vec<u8> {
    let mut table = unused(2, size);
    table[at] = byte;
    table
}

/// An object that is used, with this fresh mark.
fn fresh(mark: u8) -> Vec<u8> {
    let mut table = with(object::BYTES, object::BYTES, 1);
    table[object::BYTES + object::FRESH_AT] = mark;
    table
}

#[test]
fn tables_that_are_none_are_11() {
    let parents = [
        (unused(1, parent::BYTES - 1), 11),
        (unused(1, parent::BYTES + 1), 11),
        (with(parent::BYTES, 0, 2), 11),
        (with(parent::BYTES, parent::BYTES, 255), 11),
        (unused(1025, parent::BYTES), 11),
        (unused(1024, parent::BYTES), 0),
        (with(parent::BYTES, 1, 255), 0),
        (Vec::new(), 0),
    ];
    let objects = [
        (unused(1, object::BYTES - 1), 11),
        (unused(1, object::BYTES + 1), 11),
        (with(object::BYTES, 0, 2), 11),
        (with(object::BYTES, object::BYTES, 255), 11),
        (fresh(2), 11),
        (fresh(255), 11),
        (fresh(1), 0),
        (unused(65_537, object::BYTES), 11),
        (unused(65_536, object::BYTES), 0),
        // The fresh mark of an unused row.
        (with(object::BYTES, object::FRESH_AT, 2), 0),
        (Vec::new(), 0),
    ];
    for (parents, expected) in parents {
        expect_answer(parents, Vec::new(), expected);
    }
    for (objects, expected) in objects {
        expect_answer(Vec::new(), objects, expected);
    }
}

/// A call with a piece that closes no entry.
fn expect_answer(mut parents: Vec<u8>, mut objects: Vec<u8>, expected: u32) {
    let before = (parents.clone(), objects.clone());
    let (mut state, mut out) = (vec![0; STATE], [7]);
    let piece = b"# file: a\n";
    let answer =
        lfsck_sys::intake_feed(&mut state, piece, b"", &mut parents, &mut objects, &mut out);
    assert_eq!((answer, out), (expected, [7]));
    assert!(before == (parents, objects));
    assert_eq!(answer == 11, state == [0; STATE]);
}
