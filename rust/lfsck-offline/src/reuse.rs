//! Which object a redirect uses in place of a new one: the first that is fresh, claims the very
//! slot and is named by no slot. A redirect that was cut off after it had made the object leaves
//! such a one.
//!
//! No step before the redirect changes which object that is: of fresh objects a run lets slots name
//! those that it makes or uses, and it writes the claims of objects that slots name.

use crate::fid::OstFid;
use crate::rows::Object;
use crate::site::{Place, Site};
use crate::why;

/// The object that a redirect of a slot uses; none where it takes a FID of the reserve.
pub fn object_for(site: &Site, place: Place) -> Option<OstFid> {
    site.first_fresh(site.claim_on(place)?)
}

/// The slot that a run with create redirects to an object; none where it redirects none to it.
pub fn slot_for(site: &Site, object: &Object) -> Option<Place> {
    let claim = object.claim?;
    let place = site.claimed_place(claim)?;
    let first = site.first_fresh(claim) == Some(object.fid);
    (first && why::is_surplus(site, place)).then_some(place)
}

/// How many slots a run with create redirects to such objects.
pub fn count(site: &Site) -> usize {
    let objects = site.objects.iter().flatten();
    let used = objects.filter(|object| slot_for(site, object).is_some());
    used.count()
}

/// The objects that a run used so, told from the tables before and after it. A slot whose object
/// another keeps is changed by its redirect first, whatever takes it later.
pub fn used(before: &Site, after: &Site) -> Vec<OstFid> {
    let is_used = |object: &&Object| {
        let place = slot_for(before, object);
        place.is_some_and(|place| before.stripe(place) != after.stripe(place))
    };
    let used = before.objects.iter().flatten().filter(is_used);
    used.map(|object| object.fid).collect()
}

#[cfg(test)]
mod tests {
    use super::*;
    use crate::position::Position;
    use crate::rows::Stripe;
    use crate::slices;
    use crate::tables::Tables;
    use difftest::tables::{OBJECTS, Shape};
    use difftest::{Coverage, Random};
    use numbers::answer::{NO_OBJECT_ROW, NO_RESERVE, STEPS_USED};
    use numbers::call::{ADOPT, BOTH, CREATE, STAGE_PARENTS};
    use numbers::object;

    const SHAPE: Shape = Shape {
        parents: 4,
        objects: 8,
        slots: 3,
        files: 3,
        fids: 8,
    };

    /// The count of MULTIPLE.
    const MULTIPLE: usize = 1;

    /// Random tables with FIDs and rows for new objects, or without.
    fn random_case(random: &mut Random) -> Tables {
        let mut tables = Tables::random_cut(SHAPE, random);
        if random.one_in(2) {
            tables.reserve = OBJECTS.iter().flat_map(|fid| fid.to_bytes()).collect();
        }
        if random.one_in(2) {
            tables.objects.extend([0; 3 * object::BYTES]);
        }
        tables
    }

    /// What becomes of a slot that is redirected.
    const REDIRECTS: [&str; 6] = [
        "the only one is used",
        "the first of several is used",
        "one of another owner is used",
        "a new one is made",
        "no FID",
        "no row",
    ];

    /// How many fresh objects that no slot names claim a slot.
    fn waiting(site: &Site, place: Place) -> usize {
        let claim = site.claim_on(place);
        let objects = site.objects.iter().flatten();
        let fresh = objects.filter(|object| object.fresh && object.claim == claim);
        fresh
            .filter(|object| site.named_by(object.fid).is_empty())
            .count()
    }

    /// The slot names the object that is told, and of that one the owner alone is another.
    fn expect_used(before: &Site, after: &Site, place: Place, fid: OstFid) -> &'static str {
        let owner = before.file(place.row).expect("a file").owner;
        let row = before.object_row(fid).expect("its row");
        let object = before.objects[row].expect("an object");
        let stripe = Stripe {
            object: fid,
            generation: 0,
            ost: object.ost.into(),
        };
        assert_eq!(after.stripe(place), Some(stripe));
        let mut objects = before.objects.clone();
        objects[row] = Some(Object { owner, ..object });
        assert_eq!(after.objects, objects);
        match (object.owner == owner, waiting(before, place)) {
            (false, _) => REDIRECTS[2],
            (true, 1) => REDIRECTS[0],
            (true, _) => REDIRECTS[1],
        }
    }

    /// The step at a slot whose object another one keeps.
    fn redirect(tables: &Tables, site: &Site, place: Place) -> &'static str {
        let mut after = tables.clone();
        let position = Position::Slot(place).to_numbers();
        let run = slices::run(&mut after, CREATE, 1, position);
        let told = object_for(site, place);
        let stopped = match run.answer {
            NO_RESERVE => Some(REDIRECTS[4]),
            NO_OBJECT_ROW => Some(REDIRECTS[5]),
            _ => None,
        };
        if let Some(stopped) = stopped {
            assert_eq!((told, &after), (None, tables));
            return stopped;
        }
        assert_eq!(run.repairs[MULTIPLE], 1);
        let after = Site::new(&after);
        let Some(fid) = told else {
            let new = after.stripe(place).expect("a stripe").object;
            assert_eq!(site.object_row(new), None);
            return REDIRECTS[3];
        };
        expect_used(site, &after, place, fid)
    }

    #[test]
    fn a_redirect_uses_the_object_that_is_told() {
        let mut random = Random::for_test("redirects");
        let mut met = Coverage::of("redirects", REDIRECTS);
        for _ in 0..10_000 {
            let tables = random_case(&mut random);
            let site = Site::new(&tables);
            for position in Position::all(&site) {
                match position {
                    Position::Slot(place) if why::is_surplus(&site, place) => {
                        met.met(redirect(&tables, &site, place));
                    }
                    _ => (),
                }
            }
        }
        met.require(50);
    }

    /// Runs a step at a time, and tells which objects redirects used, in the order of their rows,
    /// and in which stage the run stands.
    fn used_by_steps(tables: &mut Tables, policy: u64, most: u64) -> (Vec<OstFid>, u64) {
        let first = Site::new(tables);
        let mut position = Position::start(&first).to_numbers();
        let mut used = Vec::new();
        for _ in 0..most {
            let before = Site::new(tables);
            let run = slices::run(tables, policy, 1, position);
            if let (Some(Position::Slot(place)), 1) =
                (Position::of_numbers(position), run.repairs[MULTIPLE])
            {
                let named = Site::new(tables).stripe(place).expect("a stripe").object;
                used.extend(before.object_row(named).map(|_| named));
            }
            position = run.position;
            if run.answer != STEPS_USED {
                break;
            }
        }
        used.sort_by_key(|fid| first.object_row(*fid));
        (used, position[0])
    }

    /// What a run leaves of an object that it used.
    const LEFT: [&str; 2] = ["it is there", "another took its place"];

    #[test]
    fn the_objects_that_a_run_used_are_told() {
        let mut random = Random::for_test("used");
        let mut met = Coverage::of("used", LEFT);
        for _ in 0..10_000 {
            let mut tables = random_case(&mut random);
            let before = Site::new(&tables);
            let policy = random.pick(&[0, CREATE, ADOPT, BOTH, BOTH, BOTH]);
            let most = random.pick(&[5, 60]);
            let (steps, stage) = used_by_steps(&mut tables, policy, most);
            let after = Site::new(&tables);
            let told = used(&before, &after);
            assert_eq!(told, steps);
            // All slots are behind the run.
            if policy & CREATE != 0 && stage != STAGE_PARENTS {
                assert_eq!(told.len(), count(&before));
            }
            for fid in told {
                met.met(LEFT[usize::from(after.object_row(fid).is_none())]);
            }
        }
        met.require(50);
    }
}
