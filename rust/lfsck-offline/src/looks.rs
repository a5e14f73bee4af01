//! The library's own answer to who keeps an object and how many slots were compared to find that
//! out.
//!
//! Each call checks the tables that it is lent, and the time for objects grows with the square of
//! their rows. But in tables that pass the check the answer depends on the files and on that
//! object's row alone; so these are lent, or no row where the object is absent. The files of large
//! tables are checked long enough by some calls; after those the index tells the same.

use std::collections::HashMap;
use std::collections::hash_map::Entry;

use numbers::call::KEEPER;

use crate::fid::OstFid;
use crate::site::{Place, Site};
use crate::tables::{Table, Tables, Together};
use crate::why::{self, Search};

/// So many bytes of parent rows are lent in all, once at least.
const MOST_LENT: usize = 1 << 28;

/// What the library answers for an object.
#[derive(Clone, Copy, Debug, PartialEq, Eq)]
pub struct Look {
    /// The keeper; none where no slot names the object.
    pub keeper: Option<Place>,
    /// How many slots were compared.
    pub compared: usize,
}

/// The answers for some objects; the library's number where it refuses the tables.
pub fn looks(
    tables: &Tables,
    site: &Site,
    objects: impl IntoIterator<Item = OstFid>,
) -> Result<HashMap<OstFid, Look>, u32> {
    looks_within(MOST_LENT, tables, site, objects)
}

/// The same, with at most so many bytes of parent rows lent.
fn looks_within(
    most_lent: usize,
    tables: &Tables,
    site: &Site,
    objects: impl IntoIterator<Item = OstFid>,
) -> Result<HashMap<OstFid, Look>, u32> {
    let mut looks = HashMap::new();
    let mut lent = 0;
    for object in objects {
        if let Entry::Vacant(place) = looks.entry(object) {
            place.insert(match lent < most_lent {
                true => look(tables, site, object)?,
                false => indexed(site, object),
            });
            lent += tables.parents.len();
        }
    }
    Ok(looks)
}

/// What the index tells.
fn indexed(site: &Site, object: OstFid) -> Look {
    let Search { keeper, compared } = why::search(site, object);
    Look {
        keeper: keeper.map(|(place, _)| place),
        compared,
    }
}

fn look(tables: &Tables, site: &Site, object: OstFid) -> Result<Look, u32> {
    let row = site.object_row(object);
    let bytes = row.and_then(|row| tables.rows(Table::Objects).nth(row));
    ask(&tables.parents, bytes.unwrap_or_default(), object)
}

/// One call of the library.
fn ask(parents: &[u8], objects: &[u8], OstFid(fid): OstFid) -> Result<Look, u32> {
    let mut numbers = [0; KEEPER];
    let answer = lfsck_sys::keeper(parents, objects, fid.sequence, fid.id.into(), &mut numbers);
    if answer != 0 {
        return Err(answer);
    }
    let [found, row, slot, compared] = numbers.map(|number| number as usize);
    Ok(Look {
        keeper: (found == 1).then_some(Place { row, slot }),
        compared,
    })
}

#[cfg(test)]
mod tests {
    use super::*;
    use crate::fid::Fid;
    use crate::why::Rule;
    use difftest::tables::{OBJECTS, Shape};
    use difftest::{Coverage, Random};

    /// Few files and objects, so that slots and claims meet; some FIDs are nobody's.
    const SHAPE: Shape = Shape {
        parents: 5,
        objects: 6,
        slots: 5,
        files: 4,
        fids: 6,
    };

    /// The ways that a search can take: which rule ends it, and what stands before.
    const WAYS: [&str; 14] = [
        "claimed slot",
        "claimed file, after a slot",
        "claimed file, after a hole",
        "claimed file, index past the count",
        "scan order, after the claimed file",
        "scan order, index past the count",
        "scan order, the claimed file is absent",
        "scan order, no claim",
        "scan order, the object is absent",
        "nowhere, after the claimed file",
        "nowhere, index past the count",
        "nowhere, the claimed file is absent",
        "nowhere, no claim",
        "nowhere, the object is absent",
    ];

    /// What stands before the search of the claimed file, or in its place.
    fn before(site: &Site, object: OstFid) -> &'static str {
        let Some(object) = site.object_of(object) else {
            return "the object is absent";
        };
        let Some(claim) = object.claim else {
            return "no claim";
        };
        let Some(place) = site.claimed_place(claim) else {
            return "the claimed file is absent";
        };
        let file = site.file(place.row).expect("the claimed file");
        match file.slots.get(place.slot) {
            None => "index past the count",
            Some(None) => "after a hole",
            Some(Some(_)) => "after a slot",
        }
    }

    /// The way that a search takes.
    fn way(site: &Site, object: OstFid, rule: Option<Rule>) -> String {
        let end = match rule {
            Some(Rule::ClaimedSlot) => return "claimed slot".to_string(),
            Some(Rule::ClaimedFile) => return format!("claimed file, {}", before(site, object)),
            Some(Rule::ScanOrder) => "scan order",
            None => "nowhere",
        };
        match before(site, object) {
            "after a hole" | "after a slot" => format!("{end}, after the claimed file"),
            other => format!("{end}, {other}"),
        }
    }

    /// Every object that a slot names or a row has, and FIDs that may be nobody's.
    fn asked(site: &Site) -> Vec<OstFid> {
        let stripes = site.files.iter().flatten().flat_map(|file| &file.slots);
        let named = stripes.flatten().map(|stripe| stripe.object);
        let present = site.objects.iter().flatten().map(|object| object.fid);
        let others = OBJECTS.map(|fid| OstFid(Fid::new(fid.sequence, fid.id)));
        named.chain(present).chain(others).collect()
    }

    /// The library's answer on whole tables, its answer with one row, what the index tells and the
    /// words that explain it agree.
    #[test]
    fn keepers_and_counts_are_the_library_s() {
        let mut random = Random::for_test("slots compared");
        let mut met = Coverage::of("searches", WAYS.map(str::to_string));
        for _ in 0..10_000 {
            let tables = Tables::random(SHAPE, &mut random);
            let site = Site::new(&tables);
            let asked = asked(&site);
            let looks = looks(&tables, &site, asked.iter().copied()).expect("sound tables");
            let few = looks_within(1, &tables, &site, asked.iter().copied()).expect("the same");
            for object in asked {
                let whole = ask(&tables.parents, &tables.objects, object).expect("sound tables");
                assert_eq!(looks[&object], whole, "{object}");
                assert_eq!(few[&object], whole, "{object}");
                let keeper = why::keeper(&site, object);
                assert_eq!(keeper.map(|(place, _)| place), whole.keeper, "{object}");
                assert_eq!(why::compared(&site, object), whole.compared, "{object}");
                met.met(way(&site, object, keeper.map(|(_, rule)| rule)));
            }
        }
        met.require(100);
    }

    /// Tables that the library refuses have its number.
    #[test]
    fn a_refusal_is_handed_on() {
        let tables = Tables {
            parents: vec![0],
            ..Tables::default()
        };
        let site = Site::new(&tables);
        let object = OstFid(Fid::new(OBJECTS[0].sequence, OBJECTS[0].id));
        assert_eq!(looks(&tables, &site, [object]).err(), Some(11));
    }
}
