//! `show`: everything about one file or object.

use std::collections::HashMap;
use std::path::Path;

use crate::answers::refusal;
use crate::args::ShowOptions;
use crate::bar::{Bar, Work};
use crate::case::Case;
use crate::change::Values;
use crate::class::Class;
use crate::classing::classes_at;
use crate::commands::classes::finding_json;
use crate::fid::{Fid, MdtFid, OstFid};
use crate::finding::{Finding, Needs};
use crate::json::Json;
use crate::looks::{Look, looks};
use crate::outcome::{Failure, Outcome};
use crate::position::Position;
use crate::rows::{File, Object, slots_words};
use crate::site::{Named, Place, Site};
use crate::tables::Tables;
use crate::values;
use crate::why::{self, Rule};
use crate::writes::{Writes, writes};

/// The classes of positions.
type Classes = HashMap<Position, Class>;

/// What there is to say of a FID.
struct View<'case> {
    site: &'case Site,
    classes: Classes,
    /// What the library answers for the objects of the file's slots, and for the object.
    looks: HashMap<OstFid, Look>,
    /// What the repairs write; of no position where that is not asked for.
    writes: HashMap<Position, Writes>,
}

/// Shows a file, an object, or both where both have the FID.
pub fn show(
    directory: &Path,
    options: ShowOptions,
    json: bool,
    bar: &Bar,
) -> Result<Outcome, Failure> {
    let fid = options.fid;
    let tables = Case::open(directory)?.wide_tables()?;
    let site = Site::new(&tables);
    let positions = positions(&site, fid);
    let classes = classes_at(&tables, &site, &positions, bar)?;
    let file = is_file_known(&site, MdtFid(fid));
    let object = is_object_known(&site, OstFid(fid));
    if !file && !object {
        let message = format!("nothing in {} has the FID {fid}", directory.display());
        return Err(Failure::refused(message));
    }
    let classes = positions.into_iter().zip(classes).collect();
    let view = View::new(&tables, &site, options, classes, json, bar);
    let view = view.map_err(|number| refusal(number, &tables))?;
    let text = if json {
        view.machine(fid)
    } else {
        let file = file.then(|| view.file_text(MdtFid(fid)));
        let object = object.then(|| view.object_text(OstFid(fid)));
        [file, object].into_iter().flatten().collect()
    };
    Ok(Outcome::done(text))
}

/// Every position that is spoken of: those that are told, and those of the slots that name the
/// object.
fn positions(site: &Site, fid: Fid) -> Vec<Position> {
    let mut positions = told(site, fid);
    let named_by = site.named_by(OstFid(fid)).iter().copied();
    positions.extend(named_by.map(Position::Slot));
    positions
}

/// The positions of which all is told: those of the file, those of the objects that claim it, and
/// that of the object.
fn told(site: &Site, fid: Fid) -> Vec<Position> {
    let file = MdtFid(fid);
    let own = site.file_row(file).map(|row| file_positions(site, row));
    let claimants = claimants(site, file)
        .into_iter()
        .map(|(row, _)| Position::Object(row));
    let row = site.object_row(OstFid(fid)).map(Position::Object);
    own.into_iter()
        .flatten()
        .chain(claimants)
        .chain(row)
        .collect()
}

/// What the repairs at some positions write, each by itself; the library's number where it refuses
/// the tables.
fn writes_at(
    tables: &Tables,
    site: &Site,
    classes: &Classes,
    positions: Vec<Position>,
    bar: &Bar,
) -> Result<HashMap<Position, Writes>, u32> {
    let needs = |position: Position| {
        let finding = Finding::new(site, position, classes[&position]);
        finding.repair.map(|repair| (position, repair.needs))
    };
    let repairs: HashMap<Position, Needs> = positions.into_iter().filter_map(needs).collect();
    bar.turn_to(Work::Counted("steps", repairs.len() as u64));
    let mut list = HashMap::new();
    for (position, needs) in repairs {
        list.insert(position, writes(tables, position, needs.policy())?);
        bar.show(list.len() as u64);
    }
    Ok(list)
}

/// The objects whose keepers are told: those that the slots of the file name, and the object.
fn objects(site: &Site, fid: Fid) -> Vec<OstFid> {
    let file = site.file_row(MdtFid(fid)).and_then(|row| site.file(row));
    let stripes = file
        .into_iter()
        .flat_map(|file| file.slots.iter().flatten());
    let object = Some(OstFid(fid)).filter(|fid| is_object_known(site, *fid));
    stripes.map(|stripe| stripe.object).chain(object).collect()
}

/// A row has the FID, or an object claims it.
fn is_file_known(site: &Site, fid: MdtFid) -> bool {
    site.file_row(fid).is_some() || !claimants(site, fid).is_empty()
}

/// A row has the FID, or a slot names it.
fn is_object_known(site: &Site, fid: OstFid) -> bool {
    site.object_row(fid).is_some() || !site.named_by(fid).is_empty()
}

/// The header and the slots of a file.
fn file_positions(site: &Site, row: usize) -> Vec<Position> {
    let count = site.file(row).map_or(0, |file| file.slots.len());
    let slots = (0..count).map(|slot| Position::Slot(Place { row, slot }));
    std::iter::once(Position::Header(row))
        .chain(slots)
        .collect()
}

/// The objects that claim a slot of the file, with their rows.
fn claimants(site: &Site, fid: MdtFid) -> Vec<(usize, &Object)> {
    let objects = site.objects.iter().enumerate();
    let used = objects.filter_map(|(row, object)| Some((row, object.as_ref()?)));
    used.filter(|(_, object)| object.claim.is_some_and(|claim| claim.file == fid))
        .collect()
}

impl<'case> View<'case> {
    /// The library's answers are asked for here; its number where it refuses the tables. Machines
    /// are told what the repairs of the slots that name the object write, too.
    fn new(
        tables: &Tables,
        site: &'case Site,
        options: ShowOptions,
        classes: Classes,
        json: bool,
        bar: &Bar,
    ) -> Result<View<'case>, u32> {
        let fid = options.fid;
        bar.turn_to(Work::Unmeasured("looking for keepers"));
        let looks = looks(tables, site, objects(site, fid))?;
        let asked = match json {
            true => positions(site, fid),
            false => told(site, fid),
        };
        let writes = match options.writes {
            true => writes_at(tables, site, &classes, asked, bar)?,
            false => HashMap::new(),
        };
        Ok(View {
            writes,
            site,
            classes,
            looks,
        })
    }

    /// The objects that claim a slot of the file, with their rows.
    fn claimants(&self, fid: MdtFid) -> Vec<(usize, &Object)> {
        claimants(self.site, fid)
    }

    /// What is found at a position of the file, of the object, or of a slot that names it. Keeper
    /// and slots compared are the library's answer.
    fn finding(&self, position: Position) -> Finding {
        let mut finding = self.found(position);
        if let Some(object) = finding.object {
            let look = &self.looks[&object];
            finding.keeper = self.keeper(look, finding.keeper.map(|(_, rule)| rule));
            finding.compared = Some(look.compared);
        }
        finding
    }

    /// What is found at the row of an object that claims the file. There may be very many of them,
    /// so the library is not asked for their keepers.
    fn claimant(&self, row: usize) -> Finding {
        self.found(Position::Object(row))
    }

    fn found(&self, position: Position) -> Finding {
        Finding {
            writes: self.writes.get(&position).cloned(),
            ..Finding::new(self.site, position, self.classes[&position])
        }
    }

    /// The keeper that the library answered, with the rule that makes it so.
    fn keeper(&self, look: &Look, rule: Option<Rule>) -> Option<(Named, Rule)> {
        let place = look.keeper.and_then(|place| self.site.name(place));
        place.zip(rule)
    }

    /// The findings of a file's header and slots.
    fn file_findings(&self, row: usize) -> Vec<Finding> {
        let all = file_positions(self.site, row).into_iter();
        all.map(|position| self.finding(position)).collect()
    }

    fn file_text(&self, fid: MdtFid) -> String {
        let row = self.site.file_row(fid);
        let file = row.and_then(|row| Some((row, self.site.file(row)?)));
        let mut text = match file {
            Some((row, file)) => self.present_file_text(row, file),
            None => format!("File {fid}: absent\n"),
        };
        for (row, object) in self.claimants(fid) {
            let Some(claim) = object.claim else { continue };
            let finding = self.claimant(row);
            if finding.class == Class::Kept {
                continue;
            }
            text += &format!(
                "  object {} claims slot {}, and no slot names it: {}\n",
                object.fid,
                claim.index,
                finding.class.name()
            );
            text += &more(&finding);
        }
        text
    }

    fn present_file_text(&self, row: usize, file: &File) -> String {
        let header = &file.header;
        let holes = if header.holes_allowed() {
            "with holes"
        } else {
            "without holes"
        };
        let mut text = format!(
            "File {}, parent row {row}\n  owner {}\n  layout version {}, pattern {:#x} ({holes}), \
             stripe size {}, generation {}, {}\n",
            file.fid,
            file.owner,
            header.version,
            header.pattern,
            header.stripe_size,
            header.generation,
            slots_words(file.slots.len())
        );
        for finding in self.file_findings(row) {
            text += &match finding.slot {
                None => format!("  header: {}, own {}\n", finding.class.name(), header.own),
                Some(slot) => self.slot_line(file, slot, &finding),
            };
            text += &more(&finding);
        }
        text
    }

    fn slot_line(&self, file: &File, slot: u32, finding: &Finding) -> String {
        let class = finding.class.name();
        match file.slots[slot as usize] {
            None => format!("  slot {slot}: {class}\n"),
            Some(stripe) => format!(
                "  slot {slot}: {class}, names {} on OST {}, generation {}\n{}",
                stripe.object,
                stripe.ost,
                stripe.generation,
                self.object_line(stripe.object)
            ),
        }
    }

    /// What the object of a slot says of itself, if it is there.
    fn object_line(&self, fid: OstFid) -> String {
        let Some(object) = self.site.object_of(fid) else {
            return "      the object is absent\n".to_string();
        };
        let fresh = if object.fresh { "fresh, " } else { "" };
        let claim = claim_words(object);
        format!(
            "      the object is {fresh}on OST {}, has owner {} and {claim}\n",
            object.ost, object.owner
        )
    }

    fn object_text(&self, fid: OstFid) -> String {
        let mut text = match self.site.object_row(fid) {
            Some(row) => self.present_object_text(row),
            None => format!("Object {fid}: absent\n"),
        };
        for place in self.site.named_by(fid) {
            let name = self.site.name(*place).zip(self.site.stripe(*place));
            let Some((name, stripe)) = name else {
                continue;
            };
            let class = self.classes[&Position::Slot(*place)].name();
            text += &format!("  named by {name}, on OST {}: {class}\n", stripe.ost);
        }
        text + &self.keeper_lines(fid)
    }

    /// The keeper of an object, why it is that one, and how many slots were compared.
    fn keeper_lines(&self, fid: OstFid) -> String {
        let look = &self.looks[&fid];
        let rule = why::keeper(self.site, fid).map(|(_, rule)| rule);
        match self.keeper(look, rule) {
            Some((keeper, rule)) => format!(
                "  the keeper is {keeper}: {}\n  {}\n",
                rule.words(),
                compared_words(look.compared)
            ),
            None => format!(
                "  no slot names it\n  {} compared in search of a keeper\n",
                slots_words(look.compared)
            ),
        }
    }

    fn present_object_text(&self, row: usize) -> String {
        let Some(object) = self.site.objects[row] else {
            return String::new();
        };
        let data = if object.fresh {
            "fresh: made empty by a repair and not written since"
        } else {
            "not fresh: it may hold data"
        };
        let finding = self.finding(Position::Object(row));
        format!(
            "Object {}, object row {row}\n  on OST {}, owner {}\n  {data}\n  {}\n  {}: {}\n{}",
            object.fid,
            object.ost,
            object.owner,
            claim_words(&object),
            finding.class.name(),
            finding.class.meaning(),
            more(&finding)
        )
    }

    fn machine(&self, fid: Fid) -> String {
        let file = self.site.file_row(MdtFid(fid));
        let object = self.site.object_row(OstFid(fid));
        Json::Object(vec![
            ("fid", Json::text(fid)),
            ("file", file.map_or(Json::Null, |row| self.file_json(row))),
            (
                "object",
                object.map_or(Json::Null, |row| self.object_json(row)),
            ),
            (
                "named_by",
                Json::List(
                    self.site
                        .named_by(OstFid(fid))
                        .iter()
                        .map(|place| finding_json(&self.finding(Position::Slot(*place))))
                        .collect(),
                ),
            ),
            (
                "claimed_by",
                Json::List(
                    self.claimants(MdtFid(fid))
                        .iter()
                        .map(|(row, _)| finding_json(&self.claimant(*row)))
                        .collect(),
                ),
            ),
        ])
        .line()
    }

    fn file_json(&self, row: usize) -> Json {
        let Some(file) = self.site.file(row) else {
            return Json::Null;
        };
        let findings = self.file_findings(row);
        let mut members = vec![("row", Json::Number(row as u64))];
        members.extend(values::file(file));
        members.push((
            "positions",
            Json::List(findings.iter().map(finding_json).collect()),
        ));
        Json::Object(members)
    }

    fn object_json(&self, row: usize) -> Json {
        let Some(object) = self.site.objects[row] else {
            return Json::Null;
        };
        let mut members = vec![("row", Json::Number(row as u64))];
        members.extend(values::object(&object));
        let position = finding_json(&self.finding(Position::Object(row)));
        members.push(("position", position));
        Json::Object(members)
    }
}

/// What an object claims.
fn claim_words(object: &Object) -> String {
    match object.claim {
        Some(claim) => format!("claims {claim}"),
        None => "claims nothing".to_string(),
    }
}

/// How many slots were compared to find a keeper, in words.
fn compared_words(compared: usize) -> String {
    format!("{} compared to find the keeper", slots_words(compared))
}

/// Why a position has its class and what its repair would do, where there is something to say.
fn more(finding: &Finding) -> String {
    let mut text = String::new();
    let mut add = |line: String| text += &format!("      {line}\n");
    match (finding.class, &finding.keeper) {
        (Class::Multiple, Some((keeper, rule))) => {
            let words = rule.words().replace("this slot", "that slot");
            add(format!("the keeper is {keeper}: {words}"));
        }
        (Class::Kept, _) | (_, None) => (),
        (_, Some((_, rule))) => add(format!("this slot is the keeper: {}", rule.words())),
    }
    if let (Position::Slot(_), Some(compared)) = (finding.position, finding.compared) {
        add(compared_words(compared));
    }
    if let Some(denial) = &finding.denial {
        add(format!("no repair: {denial}"));
    }
    if let Some(repair) = &finding.repair {
        add(format!("repair, {}: {}", repair.needs.words(), repair.does));
    }
    if let Some(Values { old, new }) = finding.generation {
        add(format!(
            "the layout's generation goes from {old} to {new} with it"
        ));
    }
    if let Some(writes) = &finding.writes {
        add(writes.words());
    }
    if let Some(turn) = &finding.turn {
        add(turn.words());
    }
    text
}
