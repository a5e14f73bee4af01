//! What becomes of an object's class before a run from the start comes to it.
//!
//! Classes are told of the tables as they stand. A run mends every slot before it looks at the
//! first object, and takes the objects in their order. No header and no slot has another class
//! by then, and of the objects that no slot names three kinds have:
//!
//! - One in CONFLICT, whose claimed slot gets, or becomes the only one to name, an empty object
//!   that claims it: that object can give way. It does not where the slot keeps an object that
//!   may hold data, where the layout has no such slot, or where an earlier object with the same
//!   claim is put there.
//! - An ORPHAN, where an earlier object with the same claim is put there.
//! - One that is EMPTY, which its claimed slot is redirected to: that slot names it then, or, where
//!   an earlier object with the same claim is put there, it has given way.

use crate::class::Class;
use crate::fid::OstFid;
use crate::finding::Needs;
use crate::reuse;
use crate::rows::{Claim, Object};
use crate::site::{Place, Site};
use crate::why::{self, Denial};

/// Another class than the one that the tables give as they stand.
#[derive(Clone, Debug, PartialEq, Eq)]
pub struct Turn {
    /// The class when the run comes to the object.
    pub class: Class,
    /// The policy under which it is so.
    pub needs: Needs,
    /// What the run does before.
    pub why: String,
}

impl Turn {
    /// For people.
    pub fn words(&self) -> String {
        let then = match self.class {
            Class::Orphan => ", and then puts this object there",
            _ => "",
        };
        format!("but a run {} first {}{then}", self.needs.words(), self.why)
    }
}

/// How the claimed slot of an object in CONFLICT comes to have an empty object that can give way.
#[derive(Clone, Copy, Debug, PartialEq, Eq)]
pub enum Cure {
    /// DANGLING: the absent object is made, empty.
    Made(OstFid),
    /// MULTIPLE: the slot gets a new object, empty.
    Redirected,
    /// MULTIPLE: the slot gets the empty object that claims it.
    Reused(OstFid),
    /// UNMATCHED: the empty object's claim is written.
    Claimed(OstFid),
    /// UNMATCHED, and the other slots that name the object get others.
    ClaimedAlone(OstFid),
    /// MULTIPLE: the other slots that name the object get others.
    Alone(OstFid),
}

impl Cure {
    /// The policy under which the run does this and puts the claimant there.
    fn needs(self) -> Needs {
        match self {
            Cure::Claimed(_) => Needs::Adopt,
            _ => Needs::CreateAndAdopt,
        }
    }

    /// What the run does to the slot.
    fn words(self) -> String {
        match self {
            Cure::Made(object) => format!("makes {object}, empty"),
            Cure::Redirected => "lets that slot name a new empty object".to_string(),
            Cure::Reused(object) => format!("lets that slot name {object}, empty"),
            Cure::Claimed(object) => format!("writes that slot as the claim of {object}, empty"),
            Cure::ClaimedAlone(object) => format!(
                "writes that slot as the claim of {object}, empty, and lets the other slots that \
                 name it name other objects"
            ),
            Cure::Alone(object) => {
                format!("lets the other slots that name {object}, empty, name other objects")
            }
        }
    }
}

/// What becomes of the class of an object that no slot names, that claims a place and may hold
/// data; none where it stays.
pub fn turn(site: &Site, object: &Object) -> Option<Turn> {
    let claim = object.claim?;
    let first = site
        .first_claimant(claim)
        .filter(|&first| first != object.fid);
    match (why::way_to(site, claim), first) {
        (Ok(_), Some(first)) => Some(Turn {
            class: Class::Conflict,
            needs: Needs::Adopt,
            why: format!("puts {first} there, which claims the same place and stands before it"),
        }),
        (Err(denial), None) => {
            let cure = cure(site, claim, denial)?;
            Some(Turn {
                class: Class::Orphan,
                needs: cure.needs(),
                why: cure.words(),
            })
        }
        _ => None,
    }
}

/// What becomes of the class of an object that no slot names and that is fresh; none where it
/// stays.
pub fn turn_of_empty(site: &Site, object: &Object) -> Option<Turn> {
    let slot = site.name(reuse::slot_for(site, object)?)?;
    let row = |fid| site.object_row(fid);
    let taker = object.claim.and_then(|claim| site.first_claimant(claim));
    let earlier = taker.filter(|taker| row(*taker) < row(object.fid));
    let lets = format!("lets {slot} name it");
    Some(match earlier {
        None => Turn {
            class: Class::Kept,
            needs: Needs::Create,
            why: lets,
        },
        Some(taker) => Turn {
            class: Class::Unused,
            needs: Needs::CreateAndAdopt,
            why: format!("{lets}, then puts {taker} there and destroys this object"),
        },
    })
}

/// What a run does to a claimed slot, so that a place that is denied now can be had then.
fn cure(site: &Site, claim: Claim, denial: Denial) -> Option<Cure> {
    let place = site.claimed_place(claim)?;
    let keeps = |object| why::keeper(site, object).is_some_and(|(keeper, _)| keeper == place);
    match denial {
        Denial::Index | Denial::Plain => None,
        Denial::Data(object) if keeps(object) => None,
        Denial::Absent(object) if keeps(object) => Some(Cure::Made(object)),
        Denial::OtherClaim(object) if keeps(object) && alone(site, object, place) => {
            Some(Cure::Claimed(object))
        }
        Denial::OtherClaim(object) if keeps(object) => Some(Cure::ClaimedAlone(object)),
        Denial::OtherSlot(object) => Some(Cure::Alone(object)),
        Denial::Data(_) | Denial::Absent(_) | Denial::OtherClaim(_) => {
            Some(redirected(site, place))
        }
    }
}

/// The slot gets an empty object of its own.
fn redirected(site: &Site, place: Place) -> Cure {
    reuse::object_for(site, place).map_or(Cure::Redirected, Cure::Reused)
}

/// No other slot names the object.
fn alone(site: &Site, object: OstFid, place: Place) -> bool {
    site.named_by(object).iter().all(|other| *other == place)
}

#[cfg(test)]
mod tests {
    use super::*;
    use crate::position::Position;
    use crate::slices;
    use crate::tables::Tables;
    use crate::verdict::Verdicts;
    use difftest::tables::{OBJECTS, Shape};
    use difftest::{Coverage, Random};
    use numbers::call::{ADOPT, BOTH, CREATE};

    const SHAPE: Shape = Shape {
        parents: 4,
        objects: 8,
        slots: 3,
        files: 3,
        fids: 8,
    };

    /// Every way in which a class turns or stays, by its name.
    const MET: [&str; 18] = [
        "made",
        "redirected from an absent object",
        "redirected from data",
        "redirected from another's claim",
        "redirected to one that claims the slot",
        "claimed",
        "claimed alone",
        "alone",
        "an earlier claimant of a place that can be had",
        "an earlier claimant of a place that cannot be had",
        "denied for good",
        "no turn of an orphan",
        "used",
        "used before a claimant",
        "used, and taken by an earlier claimant",
        "empty behind another",
        "empty for no slot",
        "no turn",
    ];

    fn way_met(site: &Site, class: Class, object: &Object) -> &'static str {
        match (class, object.claim) {
            (Class::Orphan | Class::Conflict, Some(claim)) => claimant_met(site, claim, object),
            (Class::Empty, Some(claim)) => empty_met(site, claim, object),
            _ => "no turn",
        }
    }

    fn claimant_met(site: &Site, claim: Claim, object: &Object) -> &'static str {
        let first = site.first_claimant(claim) == Some(object.fid);
        match why::way_to(site, claim) {
            Ok(_) if first => "no turn of an orphan",
            Ok(_) => "an earlier claimant of a place that can be had",
            Err(_) if !first => "an earlier claimant of a place that cannot be had",
            Err(denial) => match (cure(site, claim, denial), denial) {
                (None, _) => "denied for good",
                (Some(Cure::Made(_)), _) => "made",
                (Some(Cure::Reused(_)), _) => "redirected to one that claims the slot",
                (Some(Cure::Redirected), Denial::Absent(_)) => "redirected from an absent object",
                (Some(Cure::Redirected), Denial::Data(_)) => "redirected from data",
                (Some(Cure::Redirected), _) => "redirected from another's claim",
                (Some(Cure::Claimed(_)), _) => "claimed",
                (Some(Cure::ClaimedAlone(_)), _) => "claimed alone",
                (Some(Cure::Alone(_)), _) => "alone",
            },
        }
    }

    fn empty_met(site: &Site, claim: Claim, object: &Object) -> &'static str {
        let place = site.claimed_place(claim);
        let surplus = place.is_some_and(|place| why::is_surplus(site, place));
        let first = site.first_fresh(claim) == Some(object.fid);
        let taker = site.first_claimant(claim);
        match turn_of_empty(site, object).map(|turn| turn.class) {
            Some(Class::Kept) if taker.is_some() => "used before a claimant",
            Some(Class::Kept) => "used",
            Some(_) => "used, and taken by an earlier claimant",
            None if surplus && !first => "empty behind another",
            None => "empty for no slot",
        }
    }

    /// What is foretold holds under a policy.
    fn holds(turn: &Turn, policy: u64) -> bool {
        match turn.needs {
            Needs::Create => policy & CREATE != 0,
            Needs::Adopt => policy & ADOPT != 0,
            Needs::CreateAndAdopt => policy == BOTH,
            Needs::Nothing => true,
        }
    }

    /// The class that is foretold for a position under a policy; none where nothing is said of that
    /// policy. With create alone an object that is used is named, and nobody takes its place.
    fn foretold(site: &Site, position: Position, class: Class, policy: u64) -> Option<Class> {
        let object = match position {
            Position::Object(row) => site.objects[row],
            _ => None,
        };
        let turn = match (class, policy) {
            (Class::Orphan | Class::Conflict, CREATE) => return None,
            (Class::Orphan | Class::Conflict, _) => turn(site, &object?),
            (Class::Empty, CREATE) => {
                let used = reuse::slot_for(site, &object?);
                return Some(used.map_or(class, |_| Class::Kept));
            }
            (Class::Empty, _) => turn_of_empty(site, &object?),
            _ => None,
        };
        let turn = turn.filter(|turn| holds(turn, policy));
        Some(turn.map_or(class, |turn| turn.class))
    }

    /// The class at a position when a run from the start has come to it; none where it stops
    /// before.
    fn class_at_its_step(tables: &Tables, position: Position, policy: u64) -> Option<Class> {
        let site = Site::new(tables);
        let before = Position::all(&site).take_while(|other| *other != position);
        let steps = before.count() as u64;
        let start = Position::start(&site);
        let mut tables = tables.clone();
        let run = slices::run(&mut tables, policy, steps, start.to_numbers());
        if run.answer > 1 {
            return None;
        }
        assert_eq!(run.position, position.to_numbers());
        let site = Site::new(&tables);
        let verdict = Verdicts::new(&tables, &site).at(position);
        Some(verdict.expect("a class"))
    }

    /// An object that a slot names, and an unused row, are no findings: an empty object may be
    /// destroyed, and a row used.
    fn is_foretold(class: Class) -> bool {
        !matches!(class, Class::Kept | Class::Unused)
    }

    /// Random tables with room for repairs.
    fn random_case(random: &mut Random) -> Tables {
        let mut tables = Tables::random_or_cut(SHAPE, random);
        tables.parents.extend([0; numbers::parent::BYTES]);
        tables.objects.extend([0; 3 * numbers::object::BYTES]);
        tables.reserve = OBJECTS.iter().flat_map(|fid| fid.to_bytes()).collect();
        tables
    }

    #[test]
    fn the_class_at_its_step_is_the_one_foretold() {
        let mut random = Random::for_test("foretelling");
        let mut met = Coverage::of("turns", MET);
        for _ in 0..30_000 {
            let tables = random_case(&mut random);
            let site = Site::new(&tables);
            let verdicts = Verdicts::new(&tables, &site);
            let policy = random.pick(&[CREATE, ADOPT, BOTH]);
            for position in Position::all(&site) {
                let class = verdicts.at(position).expect("a class");
                let told = foretold(&site, position, class, policy);
                let then = class_at_its_step(&tables, position, policy);
                let Some((told, then)) = told.zip(then).filter(|_| is_foretold(class)) else {
                    continue;
                };
                assert_eq!(then, told, "{position:?}");
                if let Position::Object(row) = position {
                    let object = site.objects[row].expect("an object");
                    met.met(way_met(&site, class, &object));
                }
            }
        }
        met.require(50);
    }
}
