//! Everything that the test is to meet.

use std::collections::BTreeSet;

use difftest::Coverage;
use difftest::dumps::{Dump, Flaw, Trait};
use reference::intake::{self, Fault};

use crate::cut::Cut;

/// A call that is refused, or one for the end, between two pieces.
#[derive(Clone, Copy, Debug, PartialEq, Eq, PartialOrd, Ord)]
pub enum Refused {
    /// A piece that is too long.
    Piece,
    /// A table that is not one.
    Table,
    /// A state of another length.
    State,
    /// An owners file that is shorter than what was taken of it.
    Owners,
    /// No place for the line.
    Out,
    /// The end.
    End,
}

impl Refused {
    /// All of them.
    pub const ALL: [Refused; 6] = [
        Refused::Piece,
        Refused::Table,
        Refused::State,
        Refused::Owners,
        Refused::Out,
        Refused::End,
    ];
}

/// Counts of what was met.
pub struct Seen {
    pub feeds: Coverage<u32>,
    pub ends: Coverage<u32>,
    pub cuts: Coverage<Cut>,
    pub refused: Coverage<Refused>,
    flaws: Coverage<Flaw>,
    pairs: Coverage<(Flaw, Flaw)>,
    alone: Coverage<u32>,
    higher: Coverage<(u32, u32)>,
    traits: Coverage<Trait>,
    kept: Coverage<&'static str>,
}

const FAULTS: [u32; 5] = [33, 34, 35, 36, 37];
const ANSWERS: [u32; 6] = [0, 33, 34, 35, 36, 37];

impl Seen {
    /// Nothing is met yet.
    pub fn nothing() -> Seen {
        let pairs = Flaw::ALL.into_iter().flat_map(|first| {
            let later = Flaw::ALL.into_iter().filter(move |&flaw| flaw > first);
            later.map(move |second| (first, second))
        });
        let higher = (33..37).flat_map(|low| (low + 1..38).map(move |high| (low, high)));
        Seen {
            feeds: Coverage::of("answers of a feed of the whole", ANSWERS),
            ends: Coverage::of("answers of the end", ANSWERS),
            cuts: Coverage::of("cuts", Cut::ALL),
            refused: Coverage::of("calls in between", Refused::ALL),
            flaws: Coverage::of("flaws alone", Flaw::ALL),
            pairs: Coverage::of("flaws in pairs", pairs),
            alone: Coverage::of("numbers that alone apply to their line", FAULTS),
            higher: Coverage::of("a number with a higher one that loses", higher),
            traits: Coverage::of("what good dumps have", Trait::ALL),
            kept: Coverage::of("rows of dumps with a fault", ["earlier ones", "none"]),
        }
    }

    /// Counts a dump, with its fault and whether it filled a row.
    pub fn note(&mut self, dump: &Dump, fault: Option<&Fault>, filled: bool) {
        let answer = fault.map_or(0, |fault| fault.answer);
        match *dump.flaws {
            [] => {
                assert_eq!(answer, 0, "{dump:?}");
                let traits: BTreeSet<Trait> = dump.traits.iter().copied().collect();
                traits.into_iter().for_each(|it| self.traits.met(it));
            }
            [flaw] => {
                assert_eq!(answer, flaw.number(), "{dump:?}");
                self.flaws.met(flaw);
            }
            [first, second] if first != second => {
                self.pairs.met((first.min(second), first.max(second)));
            }
            _ => (),
        }
        if let Some(fault) = fault {
            self.kept.met(if filled { "earlier ones" } else { "none" });
            self.note_numbers(dump, fault);
        }
    }

    /// Counts the numbers of a fault. 34 is of an attribute's line, and all higher ones are of a
    /// closing line; so beside 34 stands the number that the entry has without the repeated line.
    fn note_numbers(&mut self, dump: &Dump, fault: &Fault) {
        let later = match fault.answer {
            34 => without_line(dump, fault.line).filter(|number| *number > 34),
            _ => None,
        };
        let higher: Vec<u32> = fault.higher.iter().copied().chain(later).collect();
        if higher.is_empty() {
            self.alone.met(fault.answer);
        }
        for number in higher {
            self.higher.met((fault.answer, number));
        }
    }

    /// Everything was met.
    pub fn require(&self) {
        self.feeds.require(1);
        self.ends.require(1);
        self.refused.require(1);
        self.flaws.require(1);
        self.pairs.require(1);
        self.alone.require(1);
        self.higher.require(1);
        self.traits.require(1);
        self.kept.require(1);
        self.cuts.require(1);
    }
}

/// The number that a dump has without one of its lines.
fn without_line(dump: &Dump, line: u64) -> Option<u32> {
    let lines = dump.text.split_inclusive(|&byte| byte == b'\n').zip(1..);
    let others = lines.filter(|(_, number)| *number != line);
    let text: Vec<u8> = others.flat_map(|(text, _)| text).copied().collect();
    let (mut parents, mut objects) = (dump.parents.clone(), dump.objects.clone());
    let read = intake::read(&text, &dump.owners, &mut parents, &mut objects);
    read.err().map(|fault| fault.answer)
}
