//! Intake takes every layout in and leaves its stripe size to the check.

use crate::seen::{Case, Seen};
use crate::{FILE, all_layouts, both, compare};
use difftest::Random;
use numbers::call::END;
use numbers::intake::{MOST_PIECE, STATE};
use numbers::parent;
use reference::interface::Feeding;
use reference::layout::Layout;
use reference::tables::{Owner, Parent};

const FEED: &str = "lfsck_intake_feed";
const AT_END: &str = "lfsck_intake_end";
const CHECK: &str = "lfsck_check of what was taken in";

/// Whatever the stripe size, the layout is taken in; the check comes after it.
const CASES: [Case<&str>; 4] = [
    (FEED, "long pieces", 0, 0),
    (FEED, "short pieces", 0, 0),
    (AT_END, "the whole dump", 0, 0),
    (CHECK, "a used row", 0, 13),
];

#[test]
fn dumps_are_taken_in_whatever_the_stripe_size() {
    let mut random = Random::for_test("stripe sizes in dumps");
    let mut seen = Seen::nothing(CASES.to_vec());
    for layout in all_layouts(&mut random) {
        for (what, most) in [("long pieces", MOST_PIECE), ("short pieces", 997)] {
            let before = random.bytes(parent::BYTES - 1);
            let parents = [&[0][..], &before].concat();
            let taken = take_in(&layout, parents.clone(), (what, most), &mut seen);
            assert!(taken == row_of(&layout, parents), "the row that is filled");
            let (answer, _) = both!(taken, |parents| check(parents, &[], &[], 0, END));
            seen.hold((CHECK, "a used row"), &layout, answer);
        }
    }
    seen.require();
}

/// The row of the file, with this layout and the owner that the dump has.
fn row_of(layout: &Layout, mut row: Vec<u8>) -> Vec<u8> {
    let parent = Parent {
        fid: FILE,
        owner: Owner { uid: 5, gid: 6 },
        layout: layout.clone(),
    };
    parent.write(&mut row);
    row
}

/// The dump of a file.
fn dump_of(layout: &Layout) -> Vec<u8> {
    let digits = |bytes: &[u8]| {
        bytes
            .iter()
            .map(|byte| format!("{byte:02x}"))
            .collect::<String>()
    };
    let lma = [&[0; 8][..], &FILE.to_bytes()].concat();
    let (lma, lov) = (digits(&lma), digits(&layout.encode()));
    format!("# file: f\ntrusted.lma=0x{lma}\ntrusted.lov=0x{lov}\n\n").into_bytes()
}

/// The parent table after both sides were fed the dump of a layout in pieces.
fn take_in(
    layout: &Layout,
    parents: Vec<u8>,
    (what, most): (&'static str, usize),
    seen: &mut Seen<&str>,
) -> Vec<u8> {
    let (dump, owners) = (dump_of(layout), b"5 6 7\n");
    let mut feeding = Feeding::of(&dump, owners);
    let mut state = vec![0; STATE];
    let mut taken = parents;
    for piece in dump.chunks(most) {
        let mut ours = taken.clone();
        let (mut out, mut our_out) = ([99], [99]);
        let answer =
            lfsck_sys::intake_feed(&mut state, piece, owners, &mut taken, &mut [], &mut out);
        let expected = feeding.feed(
            STATE,
            piece.len(),
            owners.len(),
            &mut ours,
            &mut [],
            &mut our_out,
        );
        assert_eq!((answer, out), (expected, our_out));
        assert!(taken == ours, "the table that is filled");
        seen.hold((FEED, what), layout, answer);
    }
    let lent = (state, vec![99]);
    let library = |lent: &mut (Vec<u8>, Vec<u64>)| lfsck_sys::intake_end(&lent.0, &mut lent.1);
    let reference = |lent: &mut (Vec<u8>, Vec<u64>)| feeding.end(lent.0.len(), &mut lent.1);
    let (answer, left) = compare(&lent, library, reference);
    assert!(left == lent, "the end changes nothing");
    seen.hold((AT_END, "the whole dump"), layout, answer);
    taken
}
