//! What was answered to layouts of each stripe size.

use std::collections::BTreeMap;
use std::fmt::Debug;

use crate::{COUNTS, SIZES};
use difftest::Coverage;
use reference::layout::{Layout, Version};

/// A function and something that it is lent, with its answers: where the stripe size is good, and
/// where it is none.
pub type Case<What> = (&'static str, What, u32, u32);

/// A stripe size, what a function was lent with it, and the answer.
type Answered<What> = (u32, What, u32);

/// Counts by function, and the cases that they are counts of.
pub struct Seen<What> {
    cases: Vec<Case<What>>,
    answers: BTreeMap<&'static str, Coverage<Answered<What>>>,
    /// Functions, with the version and the slots of a layout.
    layouts: Coverage<(&'static str, u8, usize)>,
}

impl<What: Ord + Copy + Debug> Seen<What> {
    /// Nothing of these cases yet.
    pub fn nothing(cases: Vec<Case<What>>) -> Seen<What> {
        let mut names: Vec<&str> = cases.iter().map(|case| case.0).collect();
        names.dedup();
        let answers = names.iter().map(|&name| {
            let own = cases.iter().filter(|case| case.0 == name);
            let things = own.flat_map(|&case| SIZES.map(|(size, _)| thing(case, size)));
            (name, Coverage::of(name, things))
        });
        let layouts = names.iter().flat_map(|&name| {
            let counts = COUNTS.into_iter();
            counts.flat_map(move |count| [(name, 1, count), (name, 3, count)])
        });
        Seen {
            answers: answers.collect(),
            layouts: Coverage::of("functions, with versions and slots of layouts", layouts),
            cases,
        }
    }

    /// Holds an answer to the case that it belongs to.
    pub fn hold(&mut self, (name, what): (&'static str, What), layout: &Layout, answer: u32) {
        let mut cases = self.cases.iter();
        let case = cases.find(|case| (case.0, case.1) == (name, what));
        let met = thing(*case.expect("a case"), layout.stripe_size);
        assert_eq!(answer, met.2, "{name}, {met:?}");
        self.answers.get_mut(name).expect("a function").met(met);
        let version = match layout.version {
            Version::One => 1,
            Version::Three(_) => 3,
        };
        self.layouts.met((name, version, layout.slots.len()));
    }

    pub fn require(&self) {
        for answers in self.answers.values() {
            answers.require(1);
        }
        self.layouts.require(1);
    }
}

/// A stripe size in a case, and the answer.
fn thing<What>((_, what, good, bad): Case<What>, size: u32) -> Answered<What> {
    let is_good = SIZES.contains(&(size, true));
    (size, what, if is_good { good } else { bad })
}
