//! The two sides of the comparison, and what a call lends them.

use std::hint::black_box;
use std::rc::Rc;

use crate::demand::check_not_destroyed;
use crate::stripes::Stripes;
use difftest::Random;
use difftest::tables::spoil_stripe_sizes;
use numbers::call::REPORT;
use numbers::fid::VERSION_AT;
use numbers::{object, parent};
use reference::interface;
use reference::tables::{OBJECT_BYTES, PARENT_BYTES};

/// Both tables as bytes. States whose files are the same bytes may share them.
#[derive(Clone, PartialEq)]
pub struct State {
    pub parents: Rc<Vec<u8>>,
    pub objects: Vec<u8>,
}

/// What a run is handed beside the tables.
#[derive(Clone, Debug, PartialEq)]
pub struct Call {
    pub reserve: Vec<u8>,
    pub policy: u64,
    pub most: u64,
    pub position: Vec<u64>,
    pub report: Vec<u64>,
}

/// The answer to a call, and all that was lent to be written, after it.
#[derive(Clone, PartialEq)]
pub struct Outcome {
    pub answer: u32,
    pub state: State,
    pub position: Vec<u64>,
    pub report: Vec<u64>,
}

type Run = fn(&mut [u8], &mut [u8], &[u8], u64, u64, &mut [u64], &mut [u64]) -> u32;

/// The library or the reference, with every call that it has answered.
pub struct Side {
    pub name: &'static str,
    run: Run,
    pub log: Vec<(Call, Outcome)>,
    /// The stripe sizes before and after every call.
    pub stripes: Stripes,
    /// The parent table that is lent, and the one that it is a copy of.
    lent: Vec<u8>,
    copied: Rc<Vec<u8>>,
}

impl Side {
    pub fn library() -> Side {
        Side::new("library", lfsck_sys::run)
    }

    pub fn reference() -> Side {
        Side::new("reference", interface::run)
    }

    fn new(name: &'static str, run: Run) -> Side {
        Side {
            name,
            run,
            log: Vec::new(),
            stripes: Stripes::nothing(),
            lent: Vec::new(),
            copied: Rc::default(),
        }
    }

    /// The parent table that is lent is a copy of this one.
    fn lend(&mut self, parents: &Rc<Vec<u8>>) {
        if !Rc::ptr_eq(&self.copied, parents) {
            self.lent.clone_from(parents);
        }
    }

    /// Makes a call on a copy of the tables. No call, in a list or not, destroys data or changes
    /// the stripe size of a file.
    pub fn call(&mut self, before: &State, call: &Call) -> Outcome {
        self.lend(&before.parents);
        let mut objects = before.objects.clone();
        let mut position = call.position.clone();
        let mut report = call.report.clone();
        let reserve = call.reserve.clone();
        let answer = (self.run)(
            &mut self.lent,
            &mut objects,
            black_box(&reserve),
            call.policy,
            call.most,
            &mut position,
            &mut report,
        );
        assert!(
            black_box(&reserve) == &call.reserve,
            "{}: a run changed the reserve",
            self.name
        );
        self.copied = if *before.parents == self.lent {
            before.parents.clone()
        } else {
            Rc::new(self.lent.clone())
        };
        let parents = self.copied.clone();
        let state = State { parents, objects };
        check_not_destroyed(before, &state);
        self.stripes.hold(before, &state);
        let outcome = Outcome {
            answer,
            state,
            position,
            report,
        };
        self.log.push((call.clone(), outcome.clone()));
        outcome
    }
}

impl State {
    /// The steps that the tables give by the paper's count.
    pub fn steps(&self) -> u64 {
        let mut steps = [0];
        let answer = interface::steps(&self.parents, &self.objects, &mut steps);
        assert_eq!(answer, 0, "sound tables");
        steps[0]
    }

    /// Where a run begins.
    pub fn start(&self) -> Vec<u64> {
        let mut position = vec![0; 3];
        let answer = interface::start(&self.parents, &self.objects, &mut position);
        assert_eq!(answer, 0, "sound tables");
        position
    }

    /// A copy that does not pass the check, most times.
    pub fn damaged(&self, random: &mut Random) -> State {
        let State {
            mut parents,
            mut objects,
        } = self.clone();
        match random.below(8) {
            0 => {
                Rc::make_mut(&mut parents).pop();
            }
            1 => objects.push(0),
            2 => objects.iter_mut().take(1).for_each(|mark| *mark |= 2),
            // The lengths of all layouts, the versions of all objects.
            3 => Rc::make_mut(&mut parents)
                .chunks_mut(PARENT_BYTES)
                .for_each(|row| row[parent::LENGTH_AT] ^= 1),
            4 => objects
                .chunks_mut(OBJECT_BYTES)
                .for_each(|row| row[object::SELF_AT + VERSION_AT] = 1),
            5 => Rc::make_mut(&mut parents).extend_from_within(..),
            6 => spoil_stripe_sizes(Rc::make_mut(&mut parents).as_mut_slice(), random),
            _ => objects.extend_from_within(..),
        }
        State { parents, objects }
    }
}

impl Outcome {
    /// The input did not pass the check.
    pub fn is_refused(&self) -> bool {
        (11..=17).contains(&self.answer)
    }

    pub fn is_at_end(&self) -> bool {
        self.position == [3, 0, 0]
    }

    pub fn steps(&self) -> u64 {
        self.report[0]
    }

    /// The repairs of SELF, MULTIPLE, DANGLING, BLANK, UNMATCHED, OWNER, EMPTY, ORPHAN and
    /// WRONG-OST.
    pub fn repairs(&self) -> &[u64] {
        &self.report[1..REPORT]
    }
}
