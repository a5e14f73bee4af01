//! What is found at a position, and what its repair would do.

use numbers::call::{ADOPT, BOTH, CREATE};

use crate::change::Values;
use crate::class::Class;
use crate::fid::{MdtFid, OstFid};
use crate::foretell::{self, Turn};
use crate::position::Position;
use crate::reuse;
use crate::rows::{Object, Owner, Stripe, raised};
use crate::site::{Named, Place, Site};
use crate::why::{self, Rule};
use crate::writes::Writes;

/// A position with its class.
pub struct Finding {
    /// Where it is.
    pub position: Position,
    /// Its class.
    pub class: Class,
    /// The file; for an object, the one that it claims.
    pub file: Option<MdtFid>,
    /// The slot; for an object, the one that it claims.
    pub slot: Option<u32>,
    /// The object.
    pub object: Option<OstFid>,
    /// The OST that the slot names.
    pub slot_ost: Option<u64>,
    /// The OST that the object is on.
    pub object_ost: Option<u64>,
    /// What its repair would do; none where nothing would be done.
    pub repair: Option<Repair>,
    /// The generation of the layout of the file before and after the repair by itself; none where
    /// the repair leaves it or makes the file.
    pub generation: Option<Values<u64>>,
    /// The records that the repair by itself writes; none where they are not asked for.
    pub writes: Option<Writes>,
    /// The keeper of the object and the rule that makes it so.
    pub keeper: Option<(Named, Rule)>,
    /// How many slots are compared to find the keeper, or to find that there is none.
    pub compared: Option<usize>,
    /// Why the claimed place of an object in CONFLICT cannot be had.
    pub denial: Option<String>,
    /// The class that the object has when a run comes to it, where that is another.
    pub turn: Option<Turn>,
}

/// A repair, and under which policy it is made.
pub struct Repair {
    /// The policy.
    pub needs: Needs,
    /// What it does.
    pub does: String,
}

/// What a repair needs of the policy.
#[derive(Clone, Copy, Debug, PartialEq, Eq)]
pub enum Needs {
    /// It is made under every policy.
    Nothing,
    /// It is made with create.
    Create,
    /// It is made with adopt.
    Adopt,
    /// It is made with both.
    CreateAndAdopt,
}

impl Needs {
    /// The least policy under which it is made.
    pub fn policy(self) -> u64 {
        match self {
            Needs::Nothing => 0,
            Needs::Create => CREATE,
            Needs::Adopt => ADOPT,
            Needs::CreateAndAdopt => BOTH,
        }
    }

    /// For machines.
    pub fn name(self) -> &'static str {
        match self {
            Needs::Nothing => "always",
            Needs::Create => "create",
            Needs::Adopt => "adopt",
            Needs::CreateAndAdopt => "create and adopt",
        }
    }

    /// For people.
    pub fn words(self) -> &'static str {
        match self {
            Needs::Nothing => "always",
            Needs::Create => "with --create",
            Needs::Adopt => "with --adopt",
            Needs::CreateAndAdopt => "with --create --adopt",
        }
    }
}

impl Finding {
    /// The finding at a position, whose class the library gave.
    pub fn new(site: &Site, position: Position, class: Class) -> Finding {
        let mut finding = Finding {
            position,
            class,
            file: None,
            slot: None,
            object: None,
            slot_ost: None,
            object_ost: None,
            repair: None,
            generation: None,
            writes: None,
            keeper: None,
            compared: None,
            denial: None,
            turn: None,
        };
        match position {
            Position::Header(row) => finding.add_header(site, row),
            Position::Slot(place) => finding.add_slot(site, place),
            Position::Object(row) => finding.add_object(site, row),
            Position::End => (),
        }
        finding
    }

    fn add_header(&mut self, site: &Site, row: usize) {
        let Some(file) = site.file(row) else { return };
        self.file = Some(file.fid);
        if self.class == Class::SelfId {
            self.repair = repair(
                Needs::Nothing,
                "write the file's id and sequence into its layout",
            );
        }
    }

    fn add_slot(&mut self, site: &Site, place: Place) {
        self.file = site.file(place.row).map(|file| file.fid);
        self.slot = Some(place.slot as u32);
        let Some(stripe) = site.stripe(place) else {
            return;
        };
        self.object = Some(stripe.object);
        self.slot_ost = Some(stripe.ost);
        self.object_ost = site
            .object_of(stripe.object)
            .map(|object| object.ost.into());
        self.add_keeper(site, stripe.object);
        self.repair = slot_repair(site, place, stripe, self.class);
        if self.class == Class::Multiple || other_ost(site, stripe).is_some() {
            self.add_generation(site);
        }
    }

    fn add_object(&mut self, site: &Site, row: usize) {
        let Some(object) = site.objects[row] else {
            return;
        };
        self.object = Some(object.fid);
        self.object_ost = Some(object.ost.into());
        self.file = object.claim.map(|claim| claim.file);
        self.slot = object.claim.map(|claim| claim.index);
        self.add_keeper(site, object.fid);
        match self.class {
            Class::Empty => {
                self.repair = repair(Needs::Adopt, "destroy the object");
                self.turn = foretell::turn_of_empty(site, &object);
            }
            Class::Orphan | Class::Conflict => self.add_place(site, object),
            _ => (),
        }
    }

    fn add_keeper(&mut self, site: &Site, object: OstFid) {
        let search = why::search(site, object);
        let keeper = search.keeper;
        self.keeper = keeper.and_then(|(place, rule)| Some((site.name(place)?, rule)));
        self.compared = Some(search.compared);
    }

    /// The repair changes the slots of the file, where it is there.
    fn add_generation(&mut self, site: &Site) {
        let row = self.file.and_then(|file| site.file_row(file));
        let file = row.and_then(|row| site.file(row));
        self.generation = file.map(|file| Values {
            old: file.header.generation,
            new: raised(file.header.generation),
        });
    }

    /// How the claimed place can be had, or why it cannot.
    fn add_place(&mut self, site: &Site, object: Object) {
        let Some(claim) = object.claim else { return };
        self.turn = foretell::turn(site, &object);
        match why::way_to(site, claim) {
            Ok(way) => {
                self.repair = repair(Needs::Adopt, way.words(claim));
                self.add_generation(site);
            }
            Err(denial) => self.denial = Some(denial.words(claim)),
        }
    }
}

impl Finding {
    /// Whether a run with create and adopt repairs it.
    pub fn can_be_mended(&self) -> bool {
        match &self.turn {
            Some(turn) => turn.class == Class::Orphan,
            None => self.repair.is_some(),
        }
    }

    /// What the repair would do, or why there is none, and what a run does before it comes here.
    pub fn repair_words(&self) -> String {
        let words = match (&self.repair, &self.denial) {
            (Some(repair), _) => format!("{}: {}", repair.needs.words(), repair.does),
            (None, Some(denial)) => format!("none: {denial}"),
            (None, None) => format!("none: {}", self.class.meaning()),
        };
        match &self.turn {
            Some(turn) => format!("{words}; {}", turn.words()),
            None => words,
        }
    }
}

fn repair(needs: Needs, does: impl Into<String>) -> Option<Repair> {
    let does = does.into();
    Some(Repair { needs, does })
}

fn slot_repair(site: &Site, place: Place, stripe: Stripe, class: Class) -> Option<Repair> {
    let file = site.file(place.row)?;
    let owner = file.owner;
    match class {
        Class::Multiple => repair(Needs::Create, redirect_words(site, place, stripe, owner)),
        Class::Dangling => repair(
            Needs::Create,
            format!("make the object, empty, on OST {}", stripe.ost),
        ),
        Class::Blank | Class::Unmatched(_) => {
            let claim = "write this slot as the object's claim";
            let does = match index_words(site, stripe) {
                None => format!("{claim}, and the owner {owner}"),
                Some(index) => format!("{claim}, the owner {owner}, and {index}"),
            };
            repair(Needs::Nothing, does)
        }
        Class::WrongOst => wrong_ost_repair(site, stripe, owner),
        Class::Owner => repair(Needs::Nothing, format!("write the owner {owner}")),
        _ => None,
    }
}

/// An empty object that claims the slot is used, its owner written where it differs; else one is
/// made.
fn redirect_words(site: &Site, place: Place, stripe: Stripe, owner: Owner) -> String {
    let used = reuse::object_for(site, place).and_then(|object| site.object_of(object));
    let Some(object) = used else {
        return format!(
            "make an empty object on OST {} under a FID of the reserve, and name it here",
            stripe.ost
        );
    };
    let writes = match object.owner == owner {
        true => String::new(),
        false => format!("write the owner {owner}, "),
    };
    format!(
        "use {}, empty, which claims this slot: {writes}name it here, on OST {}",
        object.fid, object.ost
    )
}

/// The index is written into the slot, and the owner too where it differs.
fn wrong_ost_repair(site: &Site, stripe: Stripe, owner: Owner) -> Option<Repair> {
    let index = index_words(site, stripe)?;
    let does = match site.object_of(stripe.object)?.owner == owner {
        true => format!("write {index}"),
        false => format!("write the owner {owner}, and {index}"),
    };
    repair(Needs::Nothing, does)
}

/// The OST index that is written into a slot; none where it is right.
fn index_words(site: &Site, stripe: Stripe) -> Option<String> {
    let ost = other_ost(site, stripe)?;
    Some(format!(
        "OST {ost}, where the object is, into the slot, which names OST {}",
        stripe.ost
    ))
}

/// The OST that the object of a slot is on, where the slot names another.
fn other_ost(site: &Site, stripe: Stripe) -> Option<u64> {
    let ost = u64::from(site.object_of(stripe.object)?.ost);
    (ost != stripe.ost).then_some(ost)
}

#[cfg(test)]
mod tests {
    use super::*;
    use crate::slices;
    use crate::tables::Tables;
    use crate::verdict::Verdicts;
    use difftest::tables::{OBJECTS, Shape};
    use difftest::{Coverage, Random};
    use numbers::answer::STEPS_USED;
    use numbers::{object, parent};

    const SHAPE: Shape = Shape {
        parents: 4,
        objects: 7,
        slots: 3,
        files: 4,
        fids: 7,
    };

    /// Every class with a repair, and what its repair does to the generation.
    const MET: [&str; 14] = [
        "SELF leaves it",
        "MULTIPLE raises it",
        "MULTIPLE that uses an object raises it",
        "DANGLING leaves it",
        "BLANK leaves it",
        "BLANK raises it",
        "UNMATCHED leaves it",
        "UNMATCHED raises it",
        "WRONG-OST raises it",
        "OWNER leaves it",
        "EMPTY leaves it",
        "ORPHAN raises it",
        "ORPHAN makes the file",
        "the last goes to 0",
    ];

    /// The generation of each file, row by row.
    fn generations(site: &Site) -> Vec<Option<u64>> {
        let rows = 0..site.files.len();
        rows.map(|row| Some(site.file(row)?.header.generation))
            .collect()
    }

    /// The library's generations after the repair by itself; none where something ran out.
    fn mended(tables: &Tables, finding: &Finding, needs: Needs) -> Option<Vec<Option<u64>>> {
        let mut tables = tables.clone();
        let position = finding.position.to_numbers();
        let run = slices::run(&mut tables, needs.policy(), 1, position);
        let is_made = run.answer <= STEPS_USED;
        assert_eq!(run.repairs.iter().sum::<u64>(), is_made.into(), "{run:?}");
        is_made.then(|| generations(&Site::new(&tables)))
    }

    /// What the finding says of the generations: its own file's is raised, and a made one has 0.
    fn foretold(site: &Site, finding: &Finding) -> Vec<Option<u64>> {
        let mut list = generations(site);
        let row = finding.file.and_then(|file| site.file_row(file));
        match (finding.generation, row) {
            (Some(Values { old, new }), Some(row)) => {
                assert_eq!(list[row], Some(old));
                list[row] = Some(new);
            }
            (None, None) if finding.class == Class::Orphan => {
                let unused = site.files.iter().position(Option::is_none);
                list[unused.expect("an unused row")] = Some(0);
            }
            (None, _) => (),
            (Some(_), None) => panic!("a generation of no file"),
        }
        list
    }

    /// Whether the repair uses an object that is there.
    fn uses_object(finding: &Finding) -> bool {
        let repair = finding.repair.as_ref();
        repair.is_some_and(|repair| repair.does.starts_with("use "))
    }

    fn way_met(site: &Site, finding: &Finding) -> String {
        let row = finding.file.and_then(|file| site.file_row(file));
        let does = match (finding.generation, row) {
            (Some(Values { new: 0, .. }), _) => return "the last goes to 0".to_string(),
            (Some(_), _) if uses_object(finding) => "that uses an object raises it",
            (Some(_), _) => "raises it",
            (None, None) if finding.class == Class::Orphan => "makes the file",
            (None, _) => "leaves it",
        };
        format!("{} {does}", finding.class.name())
    }

    /// Random tables with room for repairs.
    fn random_case(random: &mut Random) -> Tables {
        let mut tables = Tables::random_or_cut(SHAPE, random);
        tables.parents.extend([0; parent::BYTES]);
        tables.objects.extend([0; object::BYTES]);
        tables.reserve = OBJECTS.iter().flat_map(|fid| fid.to_bytes()).collect();
        tables
    }

    /// Every finding of random tables with its repair made by itself.
    fn expect_generations(tables: &Tables, met: &mut Coverage<String>) {
        let site = Site::new(tables);
        let verdicts = Verdicts::new(tables, &site);
        for position in Position::all(&site) {
            let class = verdicts.at(position).expect("a class");
            let finding = Finding::new(&site, position, class);
            let Some(repair) = &finding.repair else {
                assert_eq!(finding.generation, None, "{position:?}");
                continue;
            };
            if let Some(after) = mended(tables, &finding, repair.needs) {
                assert_eq!(foretold(&site, &finding), after, "{position:?}");
                met.met(way_met(&site, &finding));
            }
        }
    }

    #[test]
    fn the_generation_after_a_repair_is_the_library_s() {
        let mut random = Random::for_test("generations of findings");
        let mut met = Coverage::of("generations", MET.map(str::to_string));
        for _ in 0..5_000 {
            expect_generations(&random_case(&mut random), &mut met);
        }
        met.require(100);
    }
}
