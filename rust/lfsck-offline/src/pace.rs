//! How a run is cut into slices: so that the check with which each begins costs at most about a
//! tenth of the time.
//!
//! The library checks all tables at the beginning of each call. A run that takes less than some
//! checks is therefore made in one call. Whether it does is estimated from the tables, in rows
//! that are looked at; nothing but the number of calls depends on it.

use std::time::Duration;

use numbers::call::CREATE;

use crate::reuse;
use crate::site::Site;
use crate::tables::{Table, Tables, Together};

/// A slice takes at least so long, and at least so many times its check.
const SLICE: Duration = Duration::from_secs(1);
const CHECKS: u32 = 20;
/// A slice has at most so many times the steps of the last one: later steps may take longer.
const GROWTH: f64 = 4.0;

/// How a run is made.
#[derive(Clone, Copy, Debug, PartialEq, Eq)]
pub enum Plan {
    /// In one call.
    Whole,
    /// In slices, the first of so many steps.
    Slices(u64),
}

/// Rows that are looked at.
#[derive(Clone, Copy, Debug)]
struct Estimate {
    check: f64,
    work: f64,
}

impl Estimate {
    /// Of a check and of a run over all steps. Each search begins at the first row.
    fn of(site: &Site, tables: &Tables, policy: u64) -> Estimate {
        let count = |number: usize| number as f64;
        let files = count(site.files.iter().flatten().count());
        let objects = count(site.objects.iter().flatten().count());
        let slots = count(
            site.files
                .iter()
                .flatten()
                .map(|file| file.slots.len())
                .sum(),
        );
        let named = site.named();
        let (absent, surplus) = (count(named.absent), count(named.surplus));
        let reserve = count(tables.rows(Table::Reserve).count());
        // A row that stands twice is looked for among all later ones.
        let check = (objects * objects + files * files) / 2.0 + objects + slots + reserve;
        // A slot's object and the file that it claims; a keeper without claim among all slots.
        let found = (count(named.slots) - absent - surplus) * objects / 2.0;
        let lost = (absent + surplus) * (objects + slots / 2.0);
        let claims = (count(named.slots) + objects) * files / 2.0;
        // An object that no slot names is looked for in all of them.
        let unnamed = (objects - (count(named.objects) - absent)) * slots;
        let redirects = match policy & CREATE {
            0 => 0.0,
            _ => redirects(surplus, count(reuse::count(site)), objects, slots),
        };
        let work = found + lost + claims + unnamed + redirects + slots + objects;
        Estimate { check, work }
    }
}

/// Rows that redirects look at, of which some use an object that is there.
fn redirects(all: f64, used: f64, objects: f64, slots: f64) -> f64 {
    // Each looks for an object that claims its slot; one that does is looked for in all slots.
    let looks = all * objects + used * slots;
    // Each new FID is looked for after those that were taken before it.
    let new = all - used;
    looks + new * new / 2.0 * objects / 4.0 + new * (objects + slots)
}

/// How to make a run of so many steps.
pub fn plan(site: &Site, tables: &Tables, policy: u64, steps: u64) -> Plan {
    Estimate::of(site, tables, policy).plan(steps)
}

impl Estimate {
    fn plan(self, steps: u64) -> Plan {
        let slice = f64::from(CHECKS) * self.check / self.work.max(1.0);
        if slice >= 1.0 {
            return Plan::Whole;
        }
        Plan::Slices(((slice * steps as f64) as u64).max(1))
    }
}

/// The pace of a run in slices.
pub struct Pace {
    check: Duration,
    steps: u64,
}

impl Pace {
    /// The pace of a run whose check takes so long, after a first slice that took so long.
    pub fn after(first: u64, took: Duration, check: Duration) -> Pace {
        let mut pace = Pace {
            check,
            steps: first,
        };
        pace.took(took);
        pace
    }

    /// The steps of the slice that is next.
    pub fn steps(&self) -> u64 {
        self.steps
    }

    /// A slice took so long.
    pub fn took(&mut self, took: Duration) {
        let work = took.saturating_sub(self.check).max(took / 100);
        let wanted = SLICE.max(self.check * CHECKS);
        let factor = wanted.as_secs_f64() / work.as_secs_f64().max(1e-6);
        let steps = self.steps as f64 * factor.clamp(1.0 / GROWTH, GROWTH);
        self.steps = (steps as u64).max(1);
    }
}

#[cfg(test)]
mod tests {
    use super::*;
    use difftest::tables::Shape;
    use difftest::{Coverage, Random};

    #[test]
    fn a_slice_is_a_second_or_twenty_checks() {
        let second = Duration::from_secs(1);
        let next = |check, steps, took| {
            let pace = Pace::after(steps, took, check);
            pace.steps()
        };
        assert_eq!(next(Duration::ZERO, 1000, second), 1000);
        assert_eq!(next(Duration::ZERO, 1000, second / 2), 2000);
        assert_eq!(next(Duration::ZERO, 1000, second / 1000), 4000);
        assert_eq!(next(second, 1000, 11 * second), 2000);
        assert_eq!(next(second, 1000, 201 * second), 250);
        assert_eq!(next(Duration::ZERO, 1, 50 * second), 1);
    }

    const SHAPE: Shape = Shape {
        parents: 4,
        objects: 8,
        slots: 3,
        files: 3,
        fids: 8,
    };

    /// With create each slot whose object another keeps looks at all objects. One that finds an
    /// object to use takes no FID.
    #[test]
    fn redirects_are_estimated_where_there_are_some() {
        let mut random = Random::for_test("estimates");
        let mut met = Coverage::of("redirects", ["none", "some", "some of them use an object"]);
        for _ in 0..2_000 {
            let tables = Tables::random_or_cut(SHAPE, &mut random);
            let site = Site::new(&tables);
            let [more, work] = [CREATE, 0].map(|policy| Estimate::of(&site, &tables, policy).work);
            let objects = site.objects.iter().flatten().count() as f64;
            let surplus = site.named().surplus as f64;
            let used = reuse::count(&site) as f64;
            assert!(more - work >= surplus * objects);
            assert_eq!(more > work, surplus > 0.0);
            assert!(surplus >= used);
            met.met(match (surplus > 0.0, used > 0.0) {
                (false, _) => "none",
                (true, false) => "some",
                (true, true) => "some of them use an object",
            });
        }
        met.require(50);
        assert!(redirects(9.0, 5.0, 100.0, 50.0) < redirects(9.0, 4.0, 100.0, 50.0));
        assert_eq!(redirects(9.0, 9.0, 100.0, 50.0), 9.0 * (100.0 + 50.0));
    }

    #[test]
    fn a_run_that_takes_few_checks_is_one_call() {
        let plan = |check, work, steps| Estimate { check, work }.plan(steps);
        assert_eq!(plan(1e9, 2e9, 200_000), Plan::Whole);
        assert_eq!(plan(1e9, 2e10, 200_000), Plan::Whole);
        assert_eq!(plan(1e9, 4e10, 200_000), Plan::Slices(100_000));
        assert_eq!(plan(1e3, 1e10, 1000), Plan::Slices(1));
        assert_eq!(plan(0.0, 0.0, 0), Plan::Slices(1));
    }
}
