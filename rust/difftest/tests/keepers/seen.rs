//! What the test is to meet: answers, FIDs, refusals in their order, and how searches went.

use difftest::Coverage;
use reference::search::{Claimed, Search};
use reference::site::{Place, Reason};
use reference::tables::Tables;

use crate::asked::Asked;
use crate::slot_count;

/// Something that a search did on its way.
#[derive(Clone, Copy, Debug, PartialEq, Eq, PartialOrd, Ord)]
pub enum OnTheWay {
    /// The claimed slot names the object.
    OneCompared,
    /// There was no slot to compare.
    NoneCompared,
    /// Twice all slots plus 1.
    BoundReached,
    /// A hole in the claimed file, in the second case.
    HoleInClaimedFile,
    /// A hole in the last case.
    HoleInScan,
    /// An unused row before one with slots, in the last case.
    UnusedRow,
    /// A used row without slots before one with slots, in the last case.
    FileWithoutSlots,
    /// A file without slots is claimed.
    NoSlotsClaimed,
    /// A slot was compared in two cases.
    SlotTwice,
    /// A slot was compared in all three.
    SlotThreeTimes,
    /// The second case ended before the claimed slot.
    HitBeforeClaimedSlot,
    /// The second case went on past the claimed slot.
    HitAfterClaimedSlot,
    /// The last case ended before the claimed file.
    HitBeforeClaimedFile,
    /// The last case went on past the claimed file.
    HitAfterClaimedFile,
}

use OnTheWay::*;

impl OnTheWay {
    const ALL: [OnTheWay; 14] = [
        OneCompared,
        NoneCompared,
        BoundReached,
        HoleInClaimedFile,
        HoleInScan,
        UnusedRow,
        FileWithoutSlots,
        NoSlotsClaimed,
        SlotTwice,
        SlotThreeTimes,
        HitBeforeClaimedSlot,
        HitAfterClaimedSlot,
        HitBeforeClaimedFile,
        HitAfterClaimedFile,
    ];
}

/// Everything that the test is to meet.
pub struct Seen {
    answers: Coverage<u32>,
    asked: Coverage<Asked>,
    /// The places that were lent in questions about good FIDs.
    rooms: Coverage<usize>,
    /// The one fault of the tables or 0, whether the FID is bad, whether the room is too short.
    pub order: Coverage<(u32, bool, bool)>,
    /// Where searches began, and the case of the hit.
    cases: Coverage<(Claimed, Option<Reason>)>,
    on_the_way: Coverage<OnTheWay>,
}

/// Every start of a search with every end that it can have: case 1 finds only what a slot names,
/// case 2 only in a file that is there.
fn all_cases() -> impl Iterator<Item = (Claimed, Option<Reason>)> {
    use Claimed::*;
    static ENDS: [Option<Reason>; 4] = [
        None,
        Some(Reason::ScanOrder),
        Some(Reason::ClaimedParent),
        Some(Reason::ClaimedSlot),
    ];
    let ends = |claimed| match claimed {
        NoObject | NoClaim | NoFile => &ENDS[..2],
        AtCount | PastCount | Hole => &ENDS[..3],
        Named => &ENDS[..],
    };
    let all = [NoObject, NoClaim, NoFile, AtCount, PastCount, Hole, Named];
    all.into_iter()
        .flat_map(move |claimed| ends(claimed).iter().map(move |&end| (claimed, end)))
}

impl Seen {
    pub fn nothing() -> Seen {
        let flags = [(false, false), (false, true), (true, false), (true, true)];
        let faults = [0, 11, 13, 14, 15];
        let order = faults.map(|fault| flags.map(|(bad, short)| (fault, bad, short)));
        Seen {
            answers: Coverage::of("keeper answers", [0, 11, 13, 14, 15, 17]),
            asked: Coverage::of("FIDs asked for", Asked::ALL),
            rooms: Coverage::of("places lent", 0..=6),
            order: Coverage::of(
                "fault of the tables, FID bad, room short",
                order.into_iter().flatten(),
            ),
            cases: Coverage::of("where searches began and hit", all_cases()),
            on_the_way: Coverage::of("on the way", OnTheWay::ALL),
        }
    }

    pub fn require(&self) {
        self.answers.require(1000);
        self.asked.require(1000);
        self.rooms.require(1000);
        self.order.require(500);
        self.cases.require(400);
        self.on_the_way.require(500);
    }

    /// How many questions were asked.
    pub fn questions(&self) -> u64 {
        self.asked.total()
    }

    pub fn answered(&mut self, answer: u32, asked: Asked, room: usize) {
        self.answers.met(answer);
        self.asked.met(asked);
        if !asked.is_bad() {
            self.rooms.met(room);
        }
    }

    /// Notes a search that was told.
    pub fn searched(&mut self, tables: &Tables, search: &Search) {
        self.cases.met((search.claimed, end_of(search)));
        for (met, what) in walked(tables, search).into_iter().chain(hit(search)) {
            if met {
                self.on_the_way.met(what);
            }
        }
    }
}

/// What was compared and passed.
fn walked(tables: &Tables, search: &Search) -> [(bool, OnTheWay); 10] {
    let compared = &search.compared;
    let all = slot_count(tables);
    let in_hole = |case| {
        let mut slots = compared.iter().filter(|(of, _)| *of == case);
        slots.any(|(_, place)| is_hole(tables, *place))
    };
    let no_slots =
        search.claimed == Claimed::AtCount && in_case(search, Reason::ClaimedParent) == 0;
    let times = most_times(search);
    [
        (end_of(search) == Some(Reason::ClaimedSlot), OneCompared),
        (compared.is_empty(), NoneCompared),
        (compared.len() == 2 * all + 1, BoundReached),
        (in_hole(Reason::ClaimedParent), HoleInClaimedFile),
        (in_hole(Reason::ScanOrder), HoleInScan),
        (passed(tables, search, |count| count.is_none()), UnusedRow),
        (
            passed(tables, search, |count| count == Some(0)),
            FileWithoutSlots,
        ),
        (no_slots, NoSlotsClaimed),
        (times == 2, SlotTwice),
        (times == 3, SlotThreeTimes),
    ]
}

/// Where the hit was, seen from the claimed slot and from the claimed file.
fn hit(search: &Search) -> Vec<(bool, OnTheWay)> {
    let (Some((keeper, case)), Some(claimed)) = (search.keeper, claimed_slot(search)) else {
        return Vec::new();
    };
    match case {
        Reason::ClaimedSlot => Vec::new(),
        Reason::ClaimedParent => vec![
            (keeper < claimed, HitBeforeClaimedSlot),
            (keeper > claimed, HitAfterClaimedSlot),
        ],
        Reason::ScanOrder => vec![
            (keeper.row < claimed.row, HitBeforeClaimedFile),
            (keeper.row > claimed.row, HitAfterClaimedFile),
        ],
    }
}

/// The case of the hit.
fn end_of(search: &Search) -> Option<Reason> {
    search.keeper.map(|(_, case)| case)
}

/// The slot that case 1 compared.
fn claimed_slot(search: &Search) -> Option<Place> {
    let first = search.compared.first();
    first.and_then(|&(case, place)| (case == Reason::ClaimedSlot).then_some(place))
}

fn in_case(search: &Search, case: Reason) -> usize {
    search.compared.iter().filter(|(of, _)| *of == case).count()
}

fn is_hole(tables: &Tables, place: Place) -> bool {
    let file = tables.parents[place.row].as_ref().expect("a used row");
    file.layout.slots[place.slot].is_none()
}

/// Whether a row of this kind, by its number of slots or none where it is unused, stands before one
/// whose slots the last case compared.
fn passed(tables: &Tables, search: &Search, kind: fn(Option<usize>) -> bool) -> bool {
    let scanned = search
        .compared
        .iter()
        .filter(|(case, _)| *case == Reason::ScanOrder);
    let last = scanned.map(|(_, place)| place.row).max().unwrap_or(0);
    let mut before = tables.parents[..last].iter();
    before.any(|file| kind(file.as_ref().map(|file| file.layout.slots.len())))
}

/// In how many cases the slot that was compared most often was compared.
fn most_times(search: &Search) -> usize {
    let times = |place| {
        search
            .compared
            .iter()
            .filter(|(_, other)| *other == place)
            .count()
    };
    search
        .compared
        .iter()
        .map(|&(_, place)| times(place))
        .max()
        .unwrap_or(0)
}
