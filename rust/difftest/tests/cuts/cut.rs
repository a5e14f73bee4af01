//! Uncut runs, cut after every write, and the runs after a cut, cut again.

use difftest::{Coverage, Random};
use numbers::call::END;

use crate::kind::{Kind, all_cuts};
use crate::side::{Lent, Row, Side, Terms};

/// One run after a cut in so many is cut again.
const AGAIN: usize = 12;

/// The cuts that were tried on one side.
pub struct Tried {
    side: Side,
    /// The kind of the step, its writes, and how many of them stand.
    cuts: Coverage<(Kind, usize, usize)>,
    /// The same, of cuts in the run after a cut.
    again: Coverage<(Kind, usize, usize)>,
    /// How uncut runs ended.
    ends: Coverage<u32>,
    /// Room for the run after a cut.
    room: Lent,
}

/// An uncut run that reaches the end: its steps that write something, and the tables then.
struct Uncut {
    steps: Vec<Step>,
    end: Lent,
}

/// A step that writes something.
struct Step {
    before: Lent,
    after: Lent,
    writes: Vec<Row>,
    kind: Kind,
}

impl Tried {
    pub fn nothing(side: Side) -> Tried {
        Tried {
            side,
            cuts: Coverage::of("cuts by step, writes and writes made", all_cuts()),
            again: Coverage::of("cuts in the run after a cut", all_cuts()),
            ends: Coverage::of("uncut runs", [0, 21, 22, 23]),
            room: Lent::default(),
        }
    }

    /// The cuts of uncut runs, and those in runs after a cut.
    pub fn cuts(&self) -> [u64; 2] {
        [self.cuts.total(), self.again.total()]
    }

    /// Each was met at least so often.
    pub fn require(&self, least: u64) {
        self.cuts.require(least);
        self.again.require(least);
        self.ends.require(least);
    }

    /// Makes the uncut run, and cuts it everywhere if it reaches the end.
    pub fn play(&mut self, tables: &Lent, terms: &Terms, random: &mut Random) {
        let uncut = match Uncut::of(self.side, tables, terms) {
            Ok(uncut) => uncut,
            Err(stop) => return self.ends.met(stop),
        };
        self.ends.met(0);
        self.expect_end(tables, &uncut.end, terms, random);
        for step in &uncut.steps {
            for (which, cut) in step.cuts() {
                self.expect_end(&cut, &uncut.end, terms, random);
                self.cuts.met(which);
                if random.one_in(AGAIN) {
                    self.cut_again(&cut, &uncut.end, terms, random);
                }
            }
        }
    }

    /// Cuts the run after a cut everywhere: it ends as the uncut one, and so do the runs after it.
    fn cut_again(&mut self, cut: &Lent, end: &Lent, terms: &Terms, random: &mut Random) {
        let mending = Uncut::of(self.side, cut, terms);
        let mending = mending.unwrap_or_else(|stop| panic!("{stop} of {}", cut.describe()));
        assert!(&mending.end == end, "{}", cut.describe());
        for step in &mending.steps {
            for (which, cut) in step.cuts() {
                self.expect_end(&cut, end, terms, random);
                self.again.met(which);
            }
        }
    }

    /// The tables pass the check, and a run from the start, with exactly the steps that they count
    /// and with more, ends as the uncut one.
    fn expect_end(&mut self, cut: &Lent, end: &Lent, terms: &Terms, random: &mut Random) {
        let (start, counted) = (self.side.start(cut), self.side.steps(cut));
        assert_eq!(self.side.check(cut, terms, start), 0, "{}", cut.describe());
        let more = random.pick(&[counted + 1, counted + 9, u64::MAX]);
        for most in [counted, more] {
            self.room.copy(cut);
            let ended = self.side.run(&mut self.room, terms, start, most);
            assert!(
                ended.is_at_end() && &self.room == end,
                "policy {}, reserve {:x?}: {} after {most} steps from {}, and {}, not {}",
                terms.policy,
                terms.reserve,
                ended.answer,
                cut.describe(),
                self.room.describe(),
                end.describe()
            );
        }
    }
}

impl Uncut {
    /// The steps one by one, each with the writes that it was told to have; or why the run stopped.
    fn of(side: Side, start: &Lent, terms: &Terms) -> Result<Uncut, u32> {
        let (mut steps, mut position) = (Vec::new(), side.start(start));
        let (mut before, mut tables) = (start.clone(), start.clone());
        while position != END {
            let writes = side.writes(&before, terms, position);
            let ended = side.run(&mut tables, terms, position, 1);
            let writes = writes.inspect_err(|&stop| {
                assert!(stop == ended.answer && matches!(stop, 21..=23) && tables == before);
            })?;
            assert!(ended.answer < 2);
            let repairs: u64 = ended.report[1..].iter().sum();
            assert_eq!(repairs, u64::from(!writes.is_empty()));
            if !writes.is_empty() {
                let kind = Kind::at(&before, terms, position).expect("the step repairs something");
                steps.push(Step {
                    before: std::mem::replace(&mut before, tables.clone()),
                    after: tables.clone(),
                    writes,
                    kind,
                });
            }
            position = ended.position;
        }
        assert!(tables == before, "a step without writes changes a table");
        Ok(Uncut { steps, end: tables })
    }
}

impl Step {
    /// The tables after each of its writes. No row stands twice, each changes, and no other does.
    fn cuts(&self) -> Vec<((Kind, usize, usize), Lent)> {
        let (mut stored, mut cuts) = (self.before.clone(), Vec::new());
        for (place, &row) in self.writes.iter().enumerate() {
            assert!(!self.writes[..place].contains(&row), "{row:?} twice");
            assert!(!self.before.is_same(row, &self.after), "{row:?} stays");
            stored.store(row, &self.after);
            cuts.push(((self.kind, self.writes.len(), place + 1), stored.clone()));
        }
        assert!(stored == self.after, "the writes do not make the step");
        cuts
    }
}
