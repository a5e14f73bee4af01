//! The writes of steps, asked of the library and of the reference.

use std::hint::black_box;

use difftest::tables::{Lent as Watched, damage};
use difftest::{Coverage, Random};
use numbers::call::{BOTH, CREATE, END, POSITION, WRITES};
use reference::check::{Faults, faults, read_tables};
use reference::class::Class;
use reference::interface;
use reference::position::Position;
use reference::site::{Place, Site};
use reference::tables::Tables;

use crate::kind::{FINDS, Kind, all_lists, finds};
use crate::side::{Lent, Terms};

/// What was asked, and how it was answered.
pub struct Asked {
    answers: Coverage<u32>,
    policies: Coverage<u64>,
    positions: Coverage<&'static str>,
    places: Coverage<&'static str>,
    /// Steps by their kind and the number of their writes.
    lists: Coverage<(Kind, usize)>,
    /// Steps that repair nothing.
    rests: Coverage<&'static str>,
    /// What redirects find.
    finds: Coverage<&'static str>,
    /// Answers, each with the one that would have been given next.
    order: Coverage<(u32, u32)>,
}

/// A question.
struct Question<'a> {
    lent: &'a Watched,
    terms: &'a Terms,
    position: [u64; POSITION],
    places: usize,
}

const POSITIONS: [&str; 7] = [
    "a header",
    "a slot",
    "an object",
    "the end",
    "no such stage",
    "no such row",
    "no such part",
];

/// All of 11 to 17 in pairs, and a stop that comes after too few places.
fn order() -> impl Iterator<Item = (u32, u32)> {
    let refusals = (11..=17).flat_map(|first| (first + 1..=17).map(move |next| (first, next)));
    refusals.chain([(17, 21), (17, 22), (17, 23)])
}

impl Asked {
    pub fn nothing() -> Asked {
        let answers = (11..=17).chain(21..=23).chain([0]);
        Asked {
            answers: Coverage::of("answers", answers),
            policies: Coverage::of("policies", 0..=BOTH),
            positions: Coverage::of("positions", POSITIONS),
            places: Coverage::of("places", ["too few", "all", "more"]),
            lists: Coverage::of("steps by kind and number of writes", all_lists()),
            rests: Coverage::of("steps that repair nothing", POSITIONS[..3].iter().copied()),
            finds: Coverage::of("redirects find", FINDS),
            order: Coverage::of("answers, and which would be next", order()),
        }
    }

    pub fn total(&self) -> u64 {
        self.answers.total()
    }

    pub fn require(&self) {
        self.answers.require(100);
        self.policies.require(100);
        self.positions.require(100);
        self.places.require(100);
        self.lists.require(100);
        self.rests.require(100);
        self.finds.require(100);
        self.order.require(20);
    }

    /// Asks at every position, the end too, and at one that there is not.
    pub fn ask_all(&mut self, tables: &Lent, terms: &Terms, random: &mut Random) {
        let lent = Watched::new(tables.parents.clone(), tables.objects.clone());
        let (read, _) = read_tables(&tables.parents, &tables.objects);
        let (no_position, lacks) = random_no_position(&read, random);
        let site = Site::new(read);
        self.policies.met(terms.policy);
        for position in Position::all(site.tables()) {
            self.positions.met(told(position));
            let numbers = position.to_numbers();
            let question = Question::of(&lent, terms, numbers, random);
            if let (0, out) = self.ask(&question, random) {
                self.note(&site, terms, position, out[0] as usize);
            }
        }
        self.positions.met(lacks);
        self.ask(&Question::of(&lent, terms, no_position, random), random);
    }

    /// Asks with damage to the tables, the reserve, the policy or the position, one or several.
    pub fn ask_refused(&mut self, tables: Lent, mut terms: Terms, random: &mut Random) {
        let (read, _) = read_tables(&tables.parents, &tables.objects);
        let mut position = Position::start(&read).to_numbers();
        let Lent {
            mut parents,
            mut objects,
        } = tables;
        damage(&mut parents, &mut objects, random);
        damage(&mut parents, &mut objects, random);
        match random.below(8) {
            0 => terms.reserve.push(0),
            1 => terms.reserve.extend([0; 16]),
            _ => (),
        }
        if random.one_in(4) {
            terms.policy = BOTH + 1 + random.below(3) as u64;
        }
        if random.one_in(4) {
            position = random_no_position(&read, random).0;
        }
        let lent = Watched::new(parents, objects);
        self.ask(&Question::of(&lent, &terms, position, random), random);
    }

    /// Asks both sides. They answer alike, and leave alike whatever is lent; a refusal writes
    /// nothing. Gives the answer, and the places then.
    fn ask(&mut self, question: &Question, random: &mut Random) -> (u32, Vec<u64>) {
        let Question {
            lent,
            terms,
            position,
            ..
        } = *question;
        let Terms { policy, reserve } = terms;
        let places = random.numbers(question.places);
        let (mut theirs, mut ours) = (places.clone(), places.clone());
        let entries = black_box(reserve.clone());
        let answer = lent.to(|parents, objects| {
            lfsck_sys::step_writes(parents, objects, &entries, *policy, position, &mut theirs)
        });
        assert!(black_box(&entries) == reserve, "the reserve changed");
        let (parents, objects) = (&lent.parents, &lent.objects);
        let expected =
            interface::step_writes(parents, objects, reserve, *policy, position, &mut ours);
        assert_eq!(
            (answer, &theirs),
            (expected, &ours),
            "at {position:?} under policy {policy}, reserve {reserve:x?}, of {}",
            lent.describe()
        );
        assert!(answer == 0 || theirs == places, "a refusal writes");
        self.note_answer(question, answer);
        (answer, theirs)
    }

    /// Counts an answer, which is the least of those that apply.
    fn note_answer(&mut self, question: &Question, answer: u32) {
        self.answers.met(answer);
        self.places.met(match question.places.cmp(&WRITES) {
            std::cmp::Ordering::Less => "too few",
            std::cmp::Ordering::Equal => "all",
            std::cmp::Ordering::Greater => "more",
        });
        let mut apply = question.reasons().into_iter();
        let first = apply.next().unwrap_or(0);
        assert_eq!(answer, first, "at {:?}", question.position);
        if let Some(next) = apply.next() {
            self.order.met((first, next));
        }
    }

    /// Counts a step that can be made.
    fn note(&mut self, site: &Site, terms: &Terms, position: Position, writes: usize) {
        match Kind::on(site, terms, position) {
            None => self.rests.met(told(position)),
            Some(kind) => self.lists.met((kind, writes)),
        }
        if let Position::Slot { row, slot } = position
            && terms.policy & CREATE != 0
            && Class::at(site, position) == Some(Class::Multiple)
        {
            for find in finds(site, Place { row, slot }, &terms.fids()) {
                self.finds.met(find);
            }
        }
    }
}

impl<'a> Question<'a> {
    /// A question with as many places as are needed, now and then fewer or more.
    fn of(
        lent: &'a Watched,
        terms: &'a Terms,
        position: [u64; POSITION],
        random: &mut Random,
    ) -> Question<'a> {
        let places = match random.below(8) {
            0 => random.below(WRITES),
            1 => WRITES + 1 + random.below(3),
            _ => WRITES,
        };
        Question {
            lent,
            terms,
            position,
            places,
        }
    }

    /// Every reason not to hand out a list.
    fn reasons(&self) -> Faults {
        let Terms { policy, reserve } = self.terms;
        let (parents, objects) = (&self.lent.parents, &self.lent.objects);
        let mut reasons = faults(parents, objects, reserve, *policy, self.position);
        if self.position == END {
            reasons.insert(16);
        }
        if reasons.is_empty() {
            let (mut out, position) = ([0; WRITES], self.position);
            let stop =
                lfsck_sys::step_writes(parents, objects, reserve, *policy, position, &mut out);
            reasons.extend((stop != 0).then_some(stop));
        }
        if self.places < WRITES {
            reasons.insert(17);
        }
        reasons
    }
}

/// What stands at a position.
fn told(position: Position) -> &'static str {
    match position {
        Position::Header { .. } => "a header",
        Position::Slot { .. } => "a slot",
        Position::Object { .. } => "an object",
        Position::End => "the end",
    }
}

/// A position that tables don't have, and what they lack for it.
fn random_no_position(tables: &Tables, random: &mut Random) -> ([u64; POSITION], &'static str) {
    let far = random.pick(&[0, 0, 1, 1 << 32, u64::MAX >> 1]);
    let rows = [tables.parents.len(), tables.objects.len()].map(|count| count as u64);
    let row = random.below(tables.parents.len().max(1));
    let file = tables.parents.get(row).and_then(Option::as_ref);
    let slots = file.map_or(0, |file| file.layout.slots.len()) as u64;
    match random.below(8) {
        0 => ([0, 0, 0], "no such stage"),
        1 => ([4 + far, 0, 0], "no such stage"),
        2 => ([1, rows[0] + far, 0], "no such row"),
        3 => ([2, rows[1] + far, 0], "no such row"),
        4 => ([3, 1 + far, 0], "no such row"),
        5 => ([1, row as u64, slots + 1 + far], "no such part"),
        6 => ([2, 0, 1 + far], "no such part"),
        _ => ([3, 0, 1 + far], "no such part"),
    }
}
