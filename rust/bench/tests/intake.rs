//! The plain reader of dumps and the reference on the same dumps, at the same cuts.

use bench::dump::{Dump as Long, Shape};
use bench::plain::{IntakeState, intake_end, intake_feed};
use difftest::Random;
use difftest::dumps::{Dump, Flaw};
use numbers::layout::MOST_SLOTS;
use numbers::{object, parent};
use reference::interface::{Feeding, STATE_BYTES};

const DUMPS: usize = 60_000;

#[test]
fn plain_rust_takes_in_what_the_reference_does() {
    let mut random = Random::for_test("plain intake");
    for _ in 0..DUMPS {
        let flaws = [random.pick(&Flaw::ALL), random.pick(&Flaw::ALL)];
        let count = random.below(3);
        let dump = Dump::with(&flaws[..count], &mut random);
        let sizes = if random.one_in(20) {
            &[1][..]
        } else {
            &[65_536, 40, 300]
        };
        for &size in sizes {
            compare(&dump, size);
        }
    }
}

/// A dump in pieces of so many bytes. The tables are compared where a piece filled a row, and in the
/// end.
fn compare(dump: &Dump, size: usize) {
    let (mut ours, mut theirs) = (
        (dump.parents.clone(), dump.objects.clone()),
        (dump.parents.clone(), dump.objects.clone()),
    );
    let mut feeding = Feeding::of(&dump.text, &dump.owners);
    let mut state = IntakeState::new();
    let mut filled = used(&theirs);
    for piece in dump.text.chunks(size) {
        let (mut our_line, mut their_line) = (7, [7]);
        let answer = intake_feed(
            &mut state,
            piece,
            &dump.owners,
            &mut ours.0,
            &mut ours.1,
            &mut our_line,
        );
        let expected = feeding.feed(
            STATE_BYTES,
            piece.len(),
            dump.owners.len(),
            &mut theirs.0,
            &mut theirs.1,
            &mut their_line,
        );
        assert_eq!((answer, our_line), (expected, their_line[0]), "{dump:?}");
        let before = std::mem::replace(&mut filled, used(&theirs));
        assert!(filled == before || ours == theirs, "tables of {dump:?}");
    }
    assert!(ours == theirs, "tables of {dump:?}");
    let (mut our_line, mut their_line) = (7, [7]);
    let answer = intake_end(&state, &mut our_line);
    let expected = feeding.end(STATE_BYTES, &mut their_line);
    assert_eq!((answer, our_line), (expected, their_line[0]), "{dump:?}");
}

/// The used rows of both tables.
fn used((parents, objects): &(Vec<u8>, Vec<u8>)) -> usize {
    let count = |table: &[u8], size| table.chunks(size).filter(|row| row[0] == 1).count();
    count(parents, parent::BYTES) + count(objects, object::BYTES)
}

/// The dump that is made as it goes is good, has the bytes and entries that it says, and fills the
/// rows that the reference says.
#[test]
fn a_long_dump_is_made_as_it_goes() {
    for slots in [1, MOST_SLOTS] {
        let shape = Shape { slots, objects: 3 };
        expect_made(Long::of(shape, 100_000));
    }
}

fn expect_made(mut long: Long) {
    let [files, objects] = long.entries();
    let tables = || {
        (
            vec![0; parent::BYTES * files],
            vec![0; object::BYTES * objects],
        )
    };
    let (mut whole, mut piece) = (Vec::new(), vec![0; 1000]);
    loop {
        match long.next(&mut piece) {
            0 => break,
            length => whole.extend(&piece[..length]),
        }
    }
    assert_eq!(whole.len(), long.bytes());
    let (mut ours, mut theirs) = (tables(), tables());
    let owners = long.owners();
    let read = reference::intake::read(&whole, &owners, &mut ours.0, &mut ours.1);
    assert_eq!(read, Ok(()));
    assert_eq!(used(&ours), files + objects);
    let mut state = IntakeState::new();
    for piece in whole.chunks(65_536) {
        let (files, objects) = (&mut theirs.0, &mut theirs.1);
        assert_eq!(
            intake_feed(&mut state, piece, &owners, files, objects, &mut 0),
            0
        );
    }
    assert_eq!(intake_end(&state, &mut 0), 0);
    assert!(ours == theirs);
}
