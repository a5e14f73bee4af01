//! One dump on both sides.

use std::hint::black_box;

use difftest::Random;
use difftest::dumps::Dump;
use numbers::{object, parent};
use reference::intake::{self, Fault};
use reference::interface::{Feeding, STATE_BYTES};

use crate::seen::{Refused, Seen};

/// The library and the reference, each with tables of its own.
pub struct Both<'dump> {
    dump: &'dump Dump,
    feeding: Feeding,
    ours: Tables,
    theirs: Tables,
    state: Vec<u8>,
    /// What a reading that has stopped left, state and tables.
    stopped: Option<(Vec<u8>, Tables)>,
    /// What the definition says of the whole dump: its tables and its fault.
    whole: Option<(Tables, Option<Fault>)>,
}

#[derive(Clone, Debug, PartialEq)]
struct Tables {
    parents: Vec<u8>,
    objects: Vec<u8>,
}

impl Tables {
    /// That of the files, or that of the objects.
    fn table(&mut self, files: bool) -> &mut Vec<u8> {
        if files {
            &mut self.parents
        } else {
            &mut self.objects
        }
    }
}

/// What is lent beside the tables, so that a call can be made to be refused.
struct Lent<'lent> {
    state: &'lent mut [u8],
    piece: &'lent [u8],
    owners: &'lent [u8],
    out: &'lent mut [u64],
}

impl<'dump> Both<'dump> {
    /// Nothing was fed yet.
    pub fn begin(dump: &'dump Dump) -> Both<'dump> {
        let tables = Tables {
            parents: dump.parents.clone(),
            objects: dump.objects.clone(),
        };
        Both {
            dump,
            feeding: Feeding::of(&dump.text, &dump.owners),
            ours: tables.clone(),
            theirs: tables,
            state: vec![0; STATE_BYTES],
            stopped: None,
            whole: None,
        }
    }

    /// Nothing was fed yet, again. Gives the dump.
    pub fn restart(&mut self) -> &'dump Dump {
        for tables in [&mut self.ours, &mut self.theirs] {
            tables.parents.clone_from(&self.dump.parents);
            tables.objects.clone_from(&self.dump.objects);
        }
        self.feeding = Feeding::of(&self.dump.text, &self.dump.owners);
        self.state.fill(0);
        self.stopped = None;
        self.dump
    }

    /// Whether a row was filled.
    pub fn has_filled(&self) -> bool {
        self.theirs.parents != self.dump.parents || self.theirs.objects != self.dump.objects
    }

    /// Feeds the next so many bytes.
    pub fn feed(&mut self, bytes: usize, random: &mut Random) -> u32 {
        let piece = self.dump.text[self.feeding.fed()..][..bytes].to_vec();
        // After a fault, and with a piece that is too long, nothing is to change.
        let quiet = self.feeding.stopped().is_some() || bytes > 65_536;
        if quiet && self.stopped.is_none() {
            self.stopped = Some((self.state.clone(), self.theirs.clone()));
        }
        let answer = self.call(self.dump.owners.len(), &piece, &room(random));
        if let Some((state, tables)) = &self.stopped {
            let unchanged = state == &self.state && tables == &self.theirs;
            assert!(unchanged, "{answer} and changed: {:?}", self.dump);
        }
        // Reading goes on after a piece that was too long.
        if self.feeding.stopped().is_none() {
            self.stopped = None;
        }
        answer
    }

    /// A call on both sides, with as many bytes of the owners file.
    fn call(&mut self, owners: usize, piece: &[u8], out: &[u64]) -> u32 {
        let (mut our_out, mut their_out) = (out.to_vec(), out.to_vec());
        let owners_lent = self.dump.owners[..owners].to_vec();
        let lent = Lent {
            state: &mut self.state,
            piece: black_box(piece),
            owners: black_box(&owners_lent),
            out: &mut their_out,
        };
        let answer = library(lent, &mut self.theirs);
        let expected = self.feeding.feed(
            self.state.len(),
            piece.len(),
            owners,
            &mut self.ours.parents,
            &mut self.ours.objects,
            &mut our_out,
        );
        assert_eq!(
            (answer, &their_out),
            (expected, &our_out),
            "{:?}",
            self.dump
        );
        assert!(self.theirs == self.ours, "tables of {:?}", self.dump);
        assert!(black_box(&owners_lent) == &self.dump.owners[..owners]);
        answer
    }

    /// Asks both for the end.
    pub fn end(&self, random: &mut Random) -> u32 {
        let out = room(random);
        let (mut our_out, mut their_out) = (out.clone(), out);
        let state = self.state.clone();
        let answer = lfsck_sys::intake_end(black_box(&state), &mut their_out);
        let expected = self.feeding.end(state.len(), &mut our_out);
        assert_eq!(
            (answer, &their_out),
            (expected, &our_out),
            "{:?}",
            self.dump
        );
        assert!(
            black_box(&state) == &self.state,
            "the end changed the state"
        );
        answer
    }

    /// Calls that are refused and change nothing, or one for the end.
    pub fn disturb(&mut self, seen: &mut Seen, random: &mut Random) {
        let refused = random.pick(&Refused::ALL);
        let before = (self.state.clone(), self.theirs.clone(), self.feeding.fed());
        match refused {
            Refused::Piece => expect_answer(
                self.call(self.dump.owners.len(), &vec![b'\n'; 65_537], &[1]),
                11,
            ),
            Refused::Table => self.refuse_table(random),
            Refused::State => self.refuse_state(random),
            Refused::Owners if self.feeding.taken() == 0 => return,
            Refused::Owners => {
                let short = random.below(self.feeding.taken());
                expect_answer(self.call(short, b"", &[1]), 16);
            }
            Refused::Out => expect_answer(self.call(self.dump.owners.len(), b"", &[]), 17),
            Refused::End => {
                self.end(random);
            }
        }
        seen.refused.met(refused);
        let (state, tables, fed) = before;
        assert!(
            state == self.state && tables == self.theirs && fed == self.feeding.fed(),
            "{refused:?} changed something: {:?}",
            self.dump
        );
    }

    /// A table that is 11: not whole rows, or a mark above 1 in some row.
    fn refuse_table(&mut self, random: &mut Random) {
        let files = random.one_in(2);
        let size = if files { parent::BYTES } else { object::BYTES };
        let rows = self.theirs.table(files).len() / size;
        let mark = (rows > 0 && random.one_in(2)).then(|| random.below(rows) * size);
        let bad = random.pick(&[2, 128, 255]);
        let mut good = 0;
        for tables in [&mut self.ours, &mut self.theirs] {
            match mark {
                Some(at) => good = std::mem::replace(&mut tables.table(files)[at], bad),
                None => tables.table(files).push(0),
            }
        }
        let answer = self.call(self.dump.owners.len(), b"", &[]);
        expect_answer(answer, 11);
        for tables in [&mut self.ours, &mut self.theirs] {
            match mark {
                Some(at) => tables.table(files)[at] = good,
                None => assert_eq!(tables.table(files).pop(), Some(0)),
            }
        }
    }

    /// A state of another length.
    fn refuse_state(&mut self, random: &mut Random) {
        let state = self.state.clone();
        let other = random.pick(&[0, 1, STATE_BYTES - 1, STATE_BYTES + 1, 2 * STATE_BYTES]);
        self.state.resize(other, 0);
        let answer = self.call(self.dump.owners.len(), b"", &[]);
        expect_answer(answer, 16);
        self.end(random);
        self.state = state;
    }

    /// Tables, answer and line after the whole dump are those of the definition on it, whose fault
    /// is handed out.
    pub fn require_whole(&mut self) -> Option<&Fault> {
        let dump = self.dump;
        let (whole, fault) = self.whole.get_or_insert_with(|| read_whole(dump));
        assert!(whole == &self.theirs, "tables of {dump:?}");
        let told = fault.as_ref();
        let (answer, line) = told.map_or((0, 7), |fault| (fault.answer, fault.line));
        let mut out = [7];
        assert_eq!(lfsck_sys::intake_end(&self.state, &mut out), answer);
        assert_eq!(out, [line], "{dump:?}");
        told
    }
}

/// The tables after a dump by the definition, and its fault.
fn read_whole(dump: &Dump) -> (Tables, Option<Fault>) {
    let (mut parents, mut objects) = (dump.parents.clone(), dump.objects.clone());
    let fault = intake::read(&dump.text, &dump.owners, &mut parents, &mut objects).err();
    (Tables { parents, objects }, fault)
}

fn library(lent: Lent, tables: &mut Tables) -> u32 {
    lfsck_sys::intake_feed(
        lent.state,
        lent.piece,
        lent.owners,
        &mut tables.parents,
        &mut tables.objects,
        lent.out,
    )
}

fn expect_answer(answer: u32, expected: u32) {
    assert_eq!(answer, expected);
}

/// One place or more; what stands in them is any.
fn room(random: &mut Random) -> Vec<u64> {
    let count = random.pick(&[1, 1, 1, 1, 2, 3]);
    random.numbers(count)
}
