//! States that no reading has. Whatever they hold, a call is refused with 16 or gives an answer that
//! a reading gives, and no row changes but unused ones.

use difftest::dumps::Dump;
use difftest::{Coverage, Random};
use numbers::intake::{MOST_PIECE, ROOM, STATE};
use numbers::{object, parent};

use crate::random_dump;

/// So many states are tried.
const STATES: usize = 40_000;
/// The bytes before the layout that a state keeps.
const HEAD: usize = 208;
/// Numbers at which a test may be wrong by one.
const EDGES: [u64; 24] = [
    0,
    1,
    2,
    13,
    14,
    15,
    16,
    17,
    18,
    24,
    25,
    32,
    33,
    34,
    37,
    38,
    ROOM as u64,
    ROOM as u64 + 1,
    ROOM as u64 + 2,
    u32::MAX as u64,
    (1 << 63) - 1,
    1 << 63,
    (1 << 63) + 1,
    u64::MAX,
];

/// How a state is changed.
#[derive(Clone, Copy, Debug, PartialEq, Eq, PartialOrd, Ord)]
enum Change {
    /// One byte before the layout.
    Byte,
    /// Eight bytes there, as a number.
    Number,
    /// Several bytes anywhere.
    Bytes,
    /// It is the state of another dump's reading.
    Foreign,
    /// All bytes are any.
    Noise,
}

impl Change {
    const ALL: [Change; 5] = [
        Change::Byte,
        Change::Number,
        Change::Bytes,
        Change::Foreign,
        Change::Noise,
    ];

    fn make(self, state: &mut [u8], random: &mut Random) {
        match self {
            Change::Byte => state[random.below(HEAD)] = random.any() as u8,
            Change::Number => {
                let at = 8 * random.below(HEAD / 8);
                state[at..at + 8].copy_from_slice(&random.pick(&EDGES).to_le_bytes());
            }
            Change::Bytes => {
                for _ in 0..1 + random.below(4) {
                    state[random.below(STATE)] = random.any() as u8;
                }
            }
            Change::Foreign => {
                let dump = random_dump(random);
                let bytes = random.below(dump.text.len() + 1);
                state.copy_from_slice(&Call::begin(&dump).after(&dump.text[..bytes]).state);
            }
            Change::Noise => random.fill(state),
        }
    }
}

/// Everything that a call is lent and may change.
#[derive(Clone, PartialEq)]
struct Call<'dump> {
    owners: &'dump [u8],
    state: Vec<u8>,
    parents: Vec<u8>,
    objects: Vec<u8>,
    out: [u64; 2],
}

impl<'dump> Call<'dump> {
    fn begin(dump: &'dump Dump) -> Call<'dump> {
        Call {
            owners: &dump.owners,
            state: vec![0; STATE],
            parents: dump.parents.clone(),
            objects: dump.objects.clone(),
            out: [7, 8],
        }
    }

    /// After these bytes, in pieces as long as they may be.
    fn after(mut self, bytes: &[u8]) -> Call<'dump> {
        for piece in bytes.chunks(MOST_PIECE) {
            self.feed(piece);
        }
        self
    }

    fn feed(&mut self, piece: &[u8]) -> u32 {
        lfsck_sys::intake_feed(
            &mut self.state,
            piece,
            self.owners,
            &mut self.parents,
            &mut self.objects,
            &mut self.out,
        )
    }

    fn end(&self) -> u32 {
        lfsck_sys::intake_end(&self.state, &mut self.out.clone())
    }
}

#[test]
fn states_of_any_bytes_do_no_harm() {
    let mut random = Random::for_test("any states");
    let mut answers = Coverage::of("answers on any state", [0, 16, 33, 34, 35, 36, 37]);
    let ways = Change::ALL
        .into_iter()
        .flat_map(|change| [(change, "refused"), (change, "taken")]);
    let possible = ways.filter(|way| *way != (Change::Noise, "taken"));
    let mut changes = Coverage::of("changed states", possible);
    let mut past = 0;
    for _ in 0..STATES {
        let dump = random_dump(&mut random);
        // The rest is one piece.
        let from = random.below(dump.text.len() + 1);
        let from = from.max(dump.text.len().saturating_sub(MOST_PIECE));
        let mut call = Call::begin(&dump).after(&dump.text[..from]);
        let change = random.pick(&Change::ALL);
        change.make(&mut call.state, &mut random);
        let (answer, is_past) = feed_rest(call, &dump.text[from..], &mut random);
        past += usize::from(is_past);
        answers.met(answer);
        changes.met((change, if answer == 16 { "refused" } else { "taken" }));
    }
    answers.require(1);
    changes.require(1);
    println!("{past} counts that pass 2^63");
    assert!(past < STATES / 50);
}

/// Feeds the rest of a dump, in one piece and in two: the answer, and whether a count of lines or
/// of bytes of a value has passed 2^63, which no reading has. Then the next call is 16.
fn feed_rest(before: Call, rest: &[u8], random: &mut Random) -> (u32, bool) {
    let mut after = before.clone();
    let answer = after.feed(rest);
    match answer {
        16 => assert!(after == before, "16 and changed"),
        0 => assert_eq!(after.out, before.out),
        33..=37 => assert_eq!(after.out[1], before.out[1]),
        other => panic!("{other}"),
    }
    let filled = filled(&before.parents, &after.parents, parent::BYTES)
        + filled(&before.objects, &after.objects, object::BYTES);
    let empty_lines = rest.split(|&byte| byte == b'\n').filter(|it| it.is_empty());
    assert!(filled <= empty_lines.count());
    let (first, second) = rest.split_at(random.below(rest.len() + 1));
    let mut cut = before;
    cut.feed(first);
    let is_past = answer != 16 && (cut.end() == 16 || after.end() == 16);
    if !is_past {
        assert_eq!(cut.feed(second), answer);
        assert!(cut == after, "cut and different");
        require_lasting(after, rest, answer);
    }
    (answer, is_past)
}

/// A call that was refused, and a reading that has stopped, say the same again and change nothing.
fn require_lasting(mut call: Call, rest: &[u8], answer: u32) {
    let before = call.clone();
    if answer != 0 {
        assert_eq!(call.feed(rest), answer);
        assert!(call == before, "{answer} and changed");
    }
    if answer > 16 {
        assert_eq!(call.end(), answer);
    }
}

/// How many rows are filled: used ones stand, and of the unused ones the first are filled.
fn filled(before: &[u8], after: &[u8], size: usize) -> usize {
    let rows = before.chunks(size).zip(after.chunks(size));
    let (unused, used): (Vec<_>, Vec<_>) = rows.partition(|(old, _)| old[0] == 0);
    assert!(used.into_iter().all(|(old, new)| old == new), "a used row");
    let filled = unused.iter().take_while(|(_, new)| new[0] == 1).count();
    assert!(
        unused[filled..].iter().all(|(old, new)| old == new),
        "an unused row"
    );
    filled
}
