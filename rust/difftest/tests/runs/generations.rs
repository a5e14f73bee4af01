//! Layout generations in the lent bytes: what steps and calls are to do to them, and what was met.

use crate::side::State;
use difftest::indices::Indexed;
use numbers::layout::{GENERATION_AT, HEADER_ONE, HEADER_THREE, MAGIC_AT, MAGIC_THREE, PATTERN_AT};
use numbers::parent;
use reference::class::Way;

/// What clients cache of a layout.
struct Cached<'state> {
    version: Version,
    generation: u16,
    /// The bytes of all slots.
    slots: &'state [u8],
}

/// The version of a layout, which says where its slots begin.
#[derive(Clone, Copy, Debug, PartialEq, Eq, PartialOrd, Ord)]
pub enum Version {
    One,
    Three,
}

/// What a step does to generations.
#[derive(Clone, Copy, Debug, PartialEq, Eq, PartialOrd, Ord)]
pub enum Effect {
    /// That of one layout, of this version, goes up by one.
    Raised(Version),
    /// None changes.
    Left,
    /// A file is made, with 0.
    Made,
}

/// A repair, as far as the generation depends on it.
#[derive(Clone, Copy, Debug, PartialEq, Eq, PartialOrd, Ord)]
pub enum Cause {
    /// Of a class that has one effect.
    Repair(&'static str),
    /// Of a slot that keeps a present object.
    Mending(Indexed),
    /// Of an orphan, without growth.
    Adoption(Way),
    /// Of an orphan that lets a layout grow by one slot, or by several.
    Growth(&'static str),
}

/// Repairs that leave all generations.
const LEAVING: [Cause; 6] = [
    Cause::Repair("SELF"),
    Cause::Repair("DANGLING"),
    Cause::Repair("EMPTY"),
    Cause::Mending(Indexed::Owner),
    Cause::Mending(Indexed::BlankRightIndex),
    Cause::Mending(Indexed::UnmatchedRightIndex),
];

/// Repairs that raise one.
const RAISING: [Cause; 9] = [
    Cause::Repair("MULTIPLE"),
    Cause::Mending(Indexed::WrongOstRightOwner),
    Cause::Mending(Indexed::WrongOstWrongOwner),
    Cause::Mending(Indexed::BlankWrongIndex),
    Cause::Mending(Indexed::UnmatchedWrongIndex),
    Cause::Adoption(Way::FillHole),
    Cause::Adoption(Way::ReplaceFresh),
    Cause::Growth("by one slot"),
    Cause::Growth("by several slots"),
];

/// The effects of each repair; no other is allowed.
pub fn effects() -> impl Iterator<Item = (Cause, Effect)> {
    let left = LEAVING.map(|cause| (cause, Effect::Left));
    let raised = RAISING.into_iter().flat_map(|cause| {
        [Version::One, Version::Three].map(|version| (cause, Effect::Raised(version)))
    });
    let made = (Cause::Adoption(Way::MakeParent), Effect::Made);
    left.into_iter().chain(raised).chain([made])
}

/// What a call does to the generation of a row, and a second run to all.
pub const CALLS: [&str; 8] = [
    "raised by one step",
    "raised by one step in both bytes",
    "raised by several steps",
    "65,535 to 0",
    "past 65,535 by several steps",
    "made, 0",
    "made and raised",
    "none raised by a second run",
];

/// The rows of the parent table; an unused one has nothing to cache.
fn rows(state: &State) -> impl Iterator<Item = Option<Cached<'_>>> {
    let rows = state.parents.chunks_exact(parent::BYTES);
    rows.map(|row| (row[0] == 1).then(|| cached(row)))
}

/// What clients cache of a used row.
fn cached(row: &[u8]) -> Cached<'_> {
    let number = |at: usize| u16::from_le_bytes([row[at], row[at + 1]]);
    let (_, layout) = row.split_at(parent::LAYOUT_AT);
    let (version, header) = if layout[MAGIC_AT..PATTERN_AT] == MAGIC_THREE.to_le_bytes() {
        (Version::Three, HEADER_THREE)
    } else {
        (Version::One, HEADER_ONE)
    };
    Cached {
        version,
        generation: number(parent::LAYOUT_AT + GENERATION_AT),
        slots: &layout[header..number(parent::LENGTH_AT).into()],
    }
}

/// A row of the parent table.
fn row(state: &State, at: usize) -> Option<Cached<'_>> {
    rows(state).nth(at).flatten()
}

/// How many steps changed the slots of a row that was used before them, or their number. Each of
/// the tables is one step after the one before.
fn changes(steps: &[State], at: usize) -> u16 {
    let changed = |before: &State, after: &State| match (row(before, at), row(after, at)) {
        (Some(before), Some(after)) => before.slots != after.slots,
        _ => false,
    };
    let pairs = steps.windows(2);
    pairs.filter(|pair| changed(&pair[0], &pair[1])).count() as u16
}

/// After a call, which did what these steps do, each generation is the one before plus the number
/// of steps that changed the slots, modulo 65,536. A file that was made began at 0.
pub fn check_generations(steps: &[State], after: &State) {
    for (at, layout) in rows(after).enumerate() {
        let Some(layout) = layout else { continue };
        let before = row(&steps[0], at).map_or(0, |layout| layout.generation);
        let expected = before.wrapping_add(changes(steps, at));
        assert_eq!(layout.generation, expected, "row {at}, before {before}");
    }
}

/// What one step did to generations.
pub fn effect_of(before: &State, after: &State) -> Effect {
    let effects = rows(before).zip(rows(after)).filter_map(|pair| match pair {
        (None, Some(made)) => {
            assert_eq!(made.generation, 0, "a made file");
            Some(Effect::Made)
        }
        (Some(was), Some(is)) if was.generation != is.generation => {
            assert_eq!(is.generation, was.generation.wrapping_add(1));
            Some(Effect::Raised(is.version))
        }
        _ => None,
    });
    match effects.collect::<Vec<_>>()[..] {
        [] => Effect::Left,
        [effect] => effect,
        ref several => panic!("{several:?} in one step"),
    }
}

/// Whether these steps change the slots of a file that was there.
pub fn raise_any(steps: &[State]) -> bool {
    let mut rows = rows(&steps[0]).enumerate();
    rows.any(|(at, row)| row.is_some() && changes(steps, at) > 0)
}

/// What a call that did these steps did to the generation of each row.
pub fn kinds_of_call(steps: &[State]) -> impl Iterator<Item = &'static str> {
    let ends = steps.last().map(rows).into_iter().flatten();
    let pairs = rows(&steps[0]).zip(ends).enumerate();
    pairs.filter_map(|(at, pair)| {
        let changes = changes(steps, at);
        match pair {
            (None, None) => None,
            (None, Some(_)) if changes == 0 => Some("made, 0"),
            (None, Some(_)) => Some("made and raised"),
            (Some(before), _) => kind_of_raise(before.generation, changes),
        }
    })
}

fn kind_of_raise(before: u16, changes: u16) -> Option<&'static str> {
    match (before.checked_add(changes), changes) {
        (_, 0) => None,
        (None, 1) => Some("65,535 to 0"),
        (None, _) => Some("past 65,535 by several steps"),
        (Some(_), 1) if before as u8 == u8::MAX => Some("raised by one step in both bytes"),
        (Some(_), 1) => Some("raised by one step"),
        (Some(_), _) => Some("raised by several steps"),
    }
}
