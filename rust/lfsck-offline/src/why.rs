//! Why a slot is the keeper of an object, and how a claimed place can be had: the rules behind
//! the library's verdicts, for people to read.

use numbers::layout::MOST_SLOTS;

use crate::fid::OstFid;
use crate::rows::Claim;
use crate::site::{Place, Site};

/// Which rule makes a slot the keeper.
#[derive(Clone, Copy, Debug, PartialEq, Eq)]
pub enum Rule {
    /// The object claims it.
    ClaimedSlot,
    /// It is the first that names the object in the claimed file.
    ClaimedFile,
    /// It is the first that names the object at all.
    ScanOrder,
}

/// What the search for the keeper of an object comes to.
#[derive(Clone, Copy, Debug, PartialEq, Eq)]
pub struct Search {
    /// The keeper and the rule that makes it so; none where no slot names the object.
    pub keeper: Option<(Place, Rule)>,
    /// How many slots are compared, each as often as it is.
    pub compared: usize,
}

/// How a claimed place can be had.
#[derive(Clone, Copy, Debug, PartialEq, Eq)]
pub enum Way {
    /// The file is absent and is made.
    MakeFile,
    /// The slot is a hole and is filled.
    FillHole,
    /// The slot is past the count and the layout grows.
    Grow,
    /// The slot names a fresh object, which is destroyed.
    ReplaceFresh(OstFid),
}

/// Why a claimed place cannot be had.
#[derive(Clone, Copy, Debug, PartialEq, Eq)]
pub enum Denial {
    /// No layout has so many slots.
    Index,
    /// The slot is past the count of a layout without holes.
    Plain,
    /// The slot names an object that is absent.
    Absent(OstFid),
    /// The slot names an object that may hold data.
    Data(OstFid),
    /// The slot names a fresh object that claims another slot.
    OtherClaim(OstFid),
    /// The slot names a fresh object that another slot names as well.
    OtherSlot(OstFid),
}

impl Rule {
    /// The rule in words.
    pub fn words(self) -> &'static str {
        match self {
            Rule::ClaimedSlot => "the object claims this slot",
            Rule::ClaimedFile => "it is the first slot that names the object in the claimed file",
            Rule::ScanOrder => "it is the first slot in scan order that names the object",
        }
    }

    /// A short name for machines.
    pub fn name(self) -> &'static str {
        match self {
            Rule::ClaimedSlot => "claimed slot",
            Rule::ClaimedFile => "claimed file",
            Rule::ScanOrder => "scan order",
        }
    }
}

impl Way {
    /// What is done to have the place, in words.
    pub fn words(self, claim: Claim) -> String {
        match self {
            Way::MakeFile => format!("make the file and put it in slot {}", claim.index),
            Way::FillHole => format!("put it in {claim}, a hole"),
            Way::Grow => format!(
                "let the layout of {} grow to {} slots and put it in the last",
                claim.file,
                claim.index + 1
            ),
            Way::ReplaceFresh(fresh) => {
                format!("put it in {claim} and destroy the empty object {fresh} there")
            }
        }
    }
}

impl Denial {
    /// Why not, in words.
    pub fn words(self, claim: Claim) -> String {
        match self {
            Denial::Index => format!(
                "no layout has a slot {}; the last that one may have is {}",
                claim.index,
                MOST_SLOTS - 1
            ),
            Denial::Plain => format!(
                "slot {} is past the end of {}, whose pattern allows no holes",
                claim.index, claim.file
            ),
            Denial::Absent(object) => format!("{claim} names {object}, which is absent"),
            Denial::Data(object) => format!("{claim} names {object}, which may hold data"),
            Denial::OtherClaim(object) => {
                format!("{claim} names {object}, which claims another slot")
            }
            Denial::OtherSlot(object) => {
                format!("{claim} names {object}, which another slot names as well")
            }
        }
    }
}

/// The keeper of an object and the rule that makes it so; none where no slot names it.
pub fn keeper(site: &Site, object: OstFid) -> Option<(Place, Rule)> {
    search(site, object).keeper
}

/// Whether another slot keeps the object that a slot names.
pub fn is_surplus(site: &Site, place: Place) -> bool {
    let keeper = site
        .stripe(place)
        .and_then(|stripe| keeper(site, stripe.object));
    keeper.is_some_and(|(keeper, _)| keeper != place)
}

/// How many slots are compared to find the keeper of an object.
pub fn compared(site: &Site, object: OstFid) -> usize {
    search(site, object).compared
}

/// The search for the keeper of an object: the rules in turn, each up to the first slot that names
/// the object, and none after that. The index tells where each ends, so no slots are gone through.
pub fn search(site: &Site, object: OstFid) -> Search {
    let claim = site.object_of(object).and_then(|object| object.claim);
    let claimed = claim.and_then(|claim| site.claimed_place(claim));
    let by_claim = claimed.map(|claimed| search_by_claim(site, object, claimed));
    let before = match by_claim {
        Some(search) if search.keeper.is_some() => return search,
        Some(search) => search.compared,
        None => 0,
    };
    let first = site.named_by(object).first().copied();
    let scanned = match first {
        Some(place) => site.slots_before(place.row) + place.slot + 1,
        None => site.slots_before(site.files.len()),
    };
    Search {
        keeper: first.map(|place| (place, Rule::ScanOrder)),
        compared: before + scanned,
    }
}

/// The claimed slot if it names the object, else the first that does in the claimed file. A slot
/// past the end of the file is not compared.
fn search_by_claim(site: &Site, object: OstFid, claimed: Place) -> Search {
    let slots = site.slots_before(claimed.row + 1) - site.slots_before(claimed.row);
    let before = usize::from(claimed.slot < slots);
    let stripe = site.stripe(claimed);
    if stripe.is_some_and(|stripe| stripe.object == object) {
        return Search {
            keeper: Some((claimed, Rule::ClaimedSlot)),
            compared: before,
        };
    }
    let first = site.first_in_row(object, claimed.row);
    Search {
        keeper: first.map(|place| (place, Rule::ClaimedFile)),
        compared: before + first.map_or(slots, |place| place.slot + 1),
    }
}

/// How the claimed place can be had, or why it cannot.
pub fn way_to(site: &Site, claim: Claim) -> Result<Way, Denial> {
    if claim.index as usize >= MOST_SLOTS {
        return Err(Denial::Index);
    }
    let Some(place) = site.claimed_place(claim) else {
        return Ok(Way::MakeFile);
    };
    let Some(file) = site.file(place.row) else {
        return Ok(Way::MakeFile);
    };
    match file.slots.get(place.slot) {
        Some(None) => Ok(Way::FillHole),
        Some(Some(stripe)) => replace(site, place, claim, stripe.object),
        None if file.header.holes_allowed() => Ok(Way::Grow),
        None => Err(Denial::Plain),
    }
}

/// The slot names a present fresh object that claims this very slot and is named by no other.
fn replace(site: &Site, place: Place, claim: Claim, named: OstFid) -> Result<Way, Denial> {
    let object = site.object_of(named).ok_or(Denial::Absent(named))?;
    if !object.fresh {
        Err(Denial::Data(named))
    } else if object.claim != Some(claim) {
        Err(Denial::OtherClaim(named))
    } else if site.named_by(named).iter().any(|other| *other != place) {
        Err(Denial::OtherSlot(named))
    } else {
        Ok(Way::ReplaceFresh(named))
    }
}

#[cfg(test)]
mod tests {
    use super::*;
    use crate::class::Class;
    use crate::position::Position;
    use crate::tables::Tables;
    use crate::verdict::Verdicts;
    use difftest::Random;
    use difftest::tables::Shape;

    const SHAPE: Shape = Shape {
        parents: 4,
        objects: 6,
        slots: 3,
        files: 3,
        fids: 5,
    };

    /// Runs a test on the site and the verdicts of random tables.
    fn on_random_tables(name: &str, mut test: impl FnMut(&Site, &Verdicts)) {
        let mut random = Random::for_test(name);
        for _ in 0..10_000 {
            let tables = Tables::random(SHAPE, &mut random);
            let site = Site::new(&tables);
            test(&site, &Verdicts::new(&tables, &site));
        }
    }

    #[test]
    fn a_slot_is_multiple_where_it_is_not_the_keeper() {
        on_random_tables("keeper", |site, verdicts| {
            for position in Position::all(site) {
                let Position::Slot(place) = position else {
                    continue;
                };
                let Some(stripe) = site.stripe(place) else {
                    continue;
                };
                let (keeper, _) = keeper(site, stripe.object).expect("a slot that names it");
                let multiple = verdicts.at(position) == Ok(Class::Multiple);
                assert_eq!(multiple, keeper != place);
            }
        });
    }

    #[test]
    fn an_object_is_an_orphan_where_there_is_a_way() {
        on_random_tables("way", |site, verdicts| {
            for (row, object) in site.objects.iter().enumerate() {
                let Some((claim, object)) = object.and_then(|object| Some((object.claim?, object)))
                else {
                    continue;
                };
                let class = verdicts.at(Position::Object(row)).expect("a class");
                let unnamed = site.named_by(object.fid).is_empty() && !object.fresh;
                let way = way_to(site, claim).is_ok();
                assert_eq!(class == Class::Orphan, unnamed && way);
                assert_eq!(class == Class::Conflict, unnamed && !way);
            }
        });
    }
}
