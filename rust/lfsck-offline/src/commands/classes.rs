//! `classes`: what is wrong with which file, and what a repair would do.

use std::path::Path;

use crate::args::ClassesOptions;
use crate::bar::Bar;
use crate::case::Case;
use crate::change::Values;
use crate::class::{Class, MEANINGS, NAMES};
use crate::classing::classes_at;
use crate::columns::{self, Line};
use crate::filter::Filter;
use crate::finding::Finding;
use crate::foretell::Turn;
use crate::json::Json;
use crate::outcome::{Failure, Outcome, Status};
use crate::position::Position;
use crate::rows::slots_words;
use crate::site::Site;
use crate::values::{self, Members};
use crate::why;
use crate::writes::Writes;

/// The number of positions of each class.
type Counts = [u64; NAMES.len()];

/// What there is to say of all positions together.
#[derive(Default)]
struct Summary {
    counts: Counts,
    compared: Compared,
}

/// How many slots are compared to find the keepers of the objects that slots name.
#[derive(Default)]
struct Compared {
    /// The slots that name an object.
    slots: usize,
    /// The slots compared for all of these.
    sum: u64,
    /// The most that are compared for one of these.
    greatest: u64,
}

/// Lists the findings of a case.
pub fn classes(
    directory: &Path,
    options: &ClassesOptions,
    json: bool,
    bar: &Bar,
) -> Result<Outcome, Failure> {
    let tables = Case::open(directory)?.wide_tables()?;
    let site = Site::new(&tables);
    let filter = &options.filter;
    let admitted = Position::all(&site).filter(|position| filter.admits(&site, *position));
    let positions: Vec<Position> = admitted.collect();
    let mut summary = Summary::default();
    let mut findings = Vec::new();
    let listed = !options.summary || options.exit_code;
    let classes = classes_at(&tables, &site, &positions, bar)?;
    for (position, class) in positions.into_iter().zip(classes) {
        summary.add(&site, position, class);
        if listed && filter.lists(class) {
            findings.push(Finding::new(&site, position, class));
        }
    }
    let text = match (json, options.summary) {
        (true, short) => machine((!short).then_some(&findings), &summary),
        (false, true) => summary.text(),
        (false, false) => people(&findings, &summary, filter),
    };
    let to_mend = options.exit_code && findings.iter().any(Finding::can_be_mended);
    let status = if to_mend {
        Status::ToMend
    } else {
        Status::Done
    };
    Ok(Outcome::ended(text, status))
}

impl Summary {
    /// One position more.
    fn add(&mut self, site: &Site, position: Position, class: Class) {
        self.counts[class.number()] += 1;
        let stripe = match position {
            Position::Slot(place) => site.stripe(place),
            _ => None,
        };
        if let Some(stripe) = stripe {
            self.compared.add(why::compared(site, stripe.object) as u64);
        }
    }

    fn text(&self) -> String {
        let mut text = String::from("Summary:\n");
        let named = NAMES.iter().zip(MEANINGS).zip(&self.counts);
        for ((name, meaning), count) in named.filter(|(_, count)| **count > 0) {
            text += &format!("  {name:<9} {count:>7}  {meaning}\n");
        }
        text + &self.compared.text()
    }

    fn counts_json(&self) -> Json {
        let counts = NAMES.iter().zip(&self.counts);
        let members = counts.map(|(name, count)| (*name, Json::Number(*count)));
        Json::Object(members.collect())
    }
}

impl Compared {
    /// One slot more that names an object.
    fn add(&mut self, compared: u64) {
        self.slots += 1;
        self.sum += compared;
        self.greatest = self.greatest.max(compared);
    }

    /// In words, where a slot names an object.
    fn text(&self) -> String {
        let Compared {
            slots,
            sum,
            greatest,
        } = self;
        match slots {
            0 => String::new(),
            _ => format!(
                "Slots compared to find the keepers: {sum} in all for {} naming an object, at most \
                 {greatest} for one.\n",
                slots_words(*slots)
            ),
        }
    }

    fn json(&self) -> Json {
        Json::Object(vec![
            ("slots", Json::Number(self.slots as u64)),
            ("sum", Json::Number(self.sum)),
            ("greatest", Json::Number(self.greatest)),
        ])
    }
}

fn people(findings: &[Finding], summary: &Summary, filter: &Filter) -> String {
    let is_object = |finding: &&Finding| matches!(finding.position, Position::Object(_));
    let mut text = String::new();
    if findings.is_empty() {
        text += &nothing(filter);
    }
    let (objects, files): (Vec<_>, Vec<_>) = findings.iter().partition(is_object);
    text += &section("Files:", &files);
    text += &section(
        "Objects (file and slot are what the object claims):",
        &objects,
    );
    text + &summary.text()
}

/// What is said where nothing is listed.
fn nothing(filter: &Filter) -> String {
    let names: Vec<&str> = filter.classes.iter().map(|class| NAMES[*class]).collect();
    match (names.is_empty(), filter.is_of_places()) {
        (true, false) => {
            "Nothing to report: every file and object is as it should be.\n".to_string()
        }
        (true, true) => "Nothing to report of what was asked for.\n".to_string(),
        (false, _) => format!("Nothing is {}.\n", names.join(" or ")),
    }
}

/// Findings under a title, if there are any.
fn section(title: &str, findings: &[&Finding]) -> String {
    if findings.is_empty() {
        return String::new();
    }
    let class_and_repair = |class: &str, repair: &str| format!("{class:<9}  {repair}");
    let heading = Line::heading(&class_and_repair("class", "repair"));
    let lines = findings.iter().map(|finding| {
        let rest = class_and_repair(finding.class.name(), &finding.repair_words());
        Line::new(finding.file, finding.slot, finding.object, rest)
    });
    let lines: Vec<Line> = std::iter::once(heading).chain(lines).collect();
    format!("{title}\n{}", columns::text(&lines))
}

fn machine(findings: Option<&Vec<Finding>>, summary: &Summary) -> String {
    let list = |list: &Vec<Finding>| Json::List(list.iter().map(finding_json).collect());
    Json::Object(vec![
        ("findings", findings.map_or(Json::Null, list)),
        ("summary", summary.counts_json()),
        ("compared", summary.compared.json()),
    ])
    .line()
}

/// A finding for machines.
pub fn finding_json(finding: &Finding) -> Json {
    let [stage, row, part] = finding.position.to_numbers();
    let mut members = vec![
        ("stage", Json::Number(stage)),
        ("row", Json::Number(row)),
        ("part", Json::Number(part)),
        ("file", Json::maybe(finding.file)),
        ("slot", Json::maybe_number(finding.slot)),
        ("object", Json::maybe(finding.object)),
        ("slot_ost", Json::maybe_number(finding.slot_ost)),
        ("object_ost", Json::maybe_number(finding.object_ost)),
        ("class", Json::text(finding.class.name())),
    ];
    members.extend(values::claim_members(match finding.class {
        Class::Unmatched(claim) => Some(claim),
        _ => None,
    }));
    members.extend(keeper_members(finding));
    members.extend(repair_members(finding));
    members.extend([
        ("denial", Json::maybe(finding.denial.as_ref())),
        ("turn", finding.turn.as_ref().map_or(Json::Null, turn_json)),
    ]);
    Json::Object(members)
}

/// The keeper of the object, the rule that makes it so, and how many slots are compared.
fn keeper_members(finding: &Finding) -> Members {
    let keeper = finding.keeper;
    let place = keeper.map(|(keeper, _)| keeper);
    vec![
        ("keeper_file", Json::maybe(place.map(|keeper| keeper.file))),
        (
            "keeper_slot",
            Json::maybe_number(place.map(|keeper| keeper.slot as u64)),
        ),
        (
            "keeper_rule",
            Json::maybe(keeper.map(|(_, rule)| rule.name())),
        ),
        (
            "compared",
            Json::maybe_number(finding.compared.map(|compared| compared as u64)),
        ),
    ]
}

/// The repair, under which policy it is made, and what it writes; where a run would stop in front
/// of it, the number.
fn repair_members(finding: &Finding) -> Members {
    let repair = finding.repair.as_ref();
    let policy = repair.map(|repair| repair.needs.name());
    let writes = finding.writes.as_ref();
    vec![
        ("policy", Json::maybe(policy)),
        ("repair", Json::maybe(repair.map(|repair| &repair.does))),
        (
            "generation",
            finding.generation.map_or(Json::Null, generation_json),
        ),
        ("writes", writes.map_or(Json::Null, Writes::json)),
        ("stops", Json::maybe_number(writes.and_then(Writes::stop))),
    ]
}

fn generation_json(generation: Values<u64>) -> Json {
    let (old, new) = generation.to_json(Json::Number);
    Json::Object(vec![("old", old), ("new", new)])
}

fn turn_json(turn: &Turn) -> Json {
    Json::Object(vec![
        ("class", Json::text(turn.class.name())),
        ("policy", Json::text(turn.needs.name())),
        ("why", Json::text(&turn.why)),
    ])
}
