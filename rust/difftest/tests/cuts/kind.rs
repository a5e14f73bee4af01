//! The kinds of steps that write something, and what a redirect finds.

use numbers::call::POSITION;
use reference::check::read_tables;
use reference::class::{Class, Way, way_to};
use reference::fid::Fid;
use reference::position::Position;
use reference::site::{Place, Site};
use reference::step::{Policy, step};
use reference::tables::Object;

use crate::side::{Lent, Terms};

/// What a step does.
#[derive(Clone, Copy, Debug, PartialEq, Eq, PartialOrd, Ord)]
pub enum Kind {
    SelfId,
    /// A redirect to a fresh object that waits for the slot; with its owner two writes.
    Reuse,
    /// A redirect to a FID of the reserve.
    Redirect,
    Dangling,
    /// With the slot's index two writes.
    Blank,
    /// With the slot's index two writes.
    Unmatched,
    /// With the object's owner two writes.
    WrongOst,
    Owner,
    Empty,
    /// An orphan for which a file is made; its owner is the orphan's.
    MakeParent,
    /// An orphan in a hole; with its owner two writes.
    FillHole,
    /// An orphan past the count; with its owner two writes.
    Grow,
    /// An orphan in the place of a fresh object; with its owner three writes.
    ReplaceFresh,
}

/// Each kind with the numbers of writes that it can have.
const WRITES: [(Kind, &[usize]); 13] = [
    (Kind::SelfId, &[1]),
    (Kind::Reuse, &[1, 2]),
    (Kind::Redirect, &[2]),
    (Kind::Dangling, &[1]),
    (Kind::Blank, &[1, 2]),
    (Kind::Unmatched, &[1, 2]),
    (Kind::WrongOst, &[1, 2]),
    (Kind::Owner, &[1]),
    (Kind::Empty, &[1]),
    (Kind::MakeParent, &[1]),
    (Kind::FillHole, &[1, 2]),
    (Kind::Grow, &[1, 2]),
    (Kind::ReplaceFresh, &[2, 3]),
];

/// Every kind, and how many writes a step of it can have.
pub fn all_lists() -> impl Iterator<Item = (Kind, usize)> {
    WRITES.into_iter().flat_map(|(kind, counts)| {
        let counts = counts.iter().copied();
        counts.map(move |count| (kind, count))
    })
}

/// Every kind, how many writes a step of it can have, and how many of them stand at a cut.
pub fn all_cuts() -> impl Iterator<Item = (Kind, usize, usize)> {
    all_lists().flat_map(|(kind, count)| (1..=count).map(move |stored| (kind, count, stored)))
}

impl Kind {
    /// The kind of the step at a position, by the reference; none where nothing is repaired.
    pub fn at(lent: &Lent, terms: &Terms, position: [u64; POSITION]) -> Option<Kind> {
        let (tables, _) = read_tables(&lent.parents, &lent.objects);
        let position = Position::of_numbers(position, &tables)?;
        Kind::on(&Site::new(tables), terms, position)
    }

    /// The same, of a site.
    pub fn on(site: &Site, terms: &Terms, position: Position) -> Option<Kind> {
        let mut after = site.clone();
        let policy = Policy::of_number(terms.policy);
        let class = step(&mut after, position, policy, &terms.fids()).ok()??;
        let used = |site: &Site| site.tables().objects.iter().flatten().count();
        Some(match class {
            Class::SelfId => Kind::SelfId,
            Class::Multiple if used(site) == used(&after) => Kind::Reuse,
            Class::Multiple => Kind::Redirect,
            Class::Dangling => Kind::Dangling,
            Class::Blank => Kind::Blank,
            Class::Unmatched(_) => Kind::Unmatched,
            Class::WrongOst => Kind::WrongOst,
            Class::Owner => Kind::Owner,
            Class::Empty => Kind::Empty,
            Class::Orphan => Kind::of_adoption(site, position),
            other => panic!("{other:?} is not repaired"),
        })
    }

    fn of_adoption(site: &Site, position: Position) -> Kind {
        let Position::Object { row } = position else {
            panic!("{position:?} is no object");
        };
        let claim = site.object(row).and_then(|object| object.claim);
        match way_to(site, claim.expect("an orphan has a claim")) {
            Ok(Way::MakeParent) => Kind::MakeParent,
            Ok(Way::FillHole) => Kind::FillHole,
            Ok(Way::Grow) => Kind::Grow,
            Ok(Way::ReplaceFresh) => Kind::ReplaceFresh,
            Err(denial) => panic!("an orphan's place is denied: {denial:?}"),
        }
    }
}

/// What the objects that claim a slot can be to a redirect of it.
pub const FINDS: [&str; 9] = [
    "one that waits",
    "the first of several that wait",
    "one that waits on another OST",
    "one that waits, and an empty reserve",
    "one that waits, and no usable FID in the reserve",
    "one that waits, and no unused row",
    "a fresh one that a slot names",
    "one with data",
    "none",
];

/// Which of these a redirect of a slot finds.
pub fn finds(site: &Site, place: Place, reserve: &[Fid]) -> Vec<&'static str> {
    let objects = &site.tables().objects;
    let is_named = |fid: Fid| site.named_by(fid).next().is_some();
    let is_used = |&fid: &Fid| is_named(fid) || site.object_row(fid).is_some();
    let claims = |object: &&Object| object.claim == site.claim_on(place);
    let claiming: Vec<&Object> = objects.iter().flatten().filter(claims).collect();
    let is_waiting = |object: &&&Object| object.fresh && !is_named(object.fid);
    let mut waiting = claiming.iter().filter(is_waiting);
    let (first, second) = (waiting.next(), waiting.next());
    let waits = first.is_some();
    let slot_ost = site.stripe(place).map(|stripe| stripe.ost);
    let found = [
        waits,
        second.is_some(),
        first.is_some_and(|object| Some(object.ost) != slot_ost),
        waits && reserve.is_empty(),
        waits && !reserve.is_empty() && reserve.iter().all(is_used),
        waits && objects.iter().all(Option::is_some),
        claiming
            .iter()
            .any(|object| object.fresh && is_named(object.fid)),
        claiming.iter().any(|object| !object.fresh),
        claiming.is_empty(),
    ];
    let pairs = FINDS.into_iter().zip(found);
    pairs
        .filter_map(|(find, is_so)| is_so.then_some(find))
        .collect()
}
