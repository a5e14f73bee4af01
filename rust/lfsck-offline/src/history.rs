//! The entries of a case's log: what a run, a mending or a conversion did, as a line of JSON.

use crate::change::{Change, Values};
use crate::changes::changes;
use crate::clock;
use crate::digest::Digest;
use crate::fid::{Fid, OstFid};
use crate::hex;
use crate::json::Json;
use crate::mended::Mended;
use crate::name_changes::{self, NameChange};
use crate::names::Names;
use crate::narrow;
use crate::reader::Value;
use crate::saved::Saved;
use crate::site::Site;
use crate::slices::{COUNTED, Run};
use crate::tables::{Table, Tables, Together};

/// The file of the log.
pub const LOG: &str = "lfsck-offline.log";

/// The version of the command.
pub const VERSION: &str = env!("CARGO_PKG_VERSION");

/// A word for a conversion.
const CONVERSION: &str = "conversion";

/// The names of a conversion's numbers.
const CONVERTED: [&str; 3] = ["parent_rows", "from_bytes", "to_bytes"];

/// A row that was changed.
#[derive(Clone, Debug, PartialEq, Eq)]
pub struct Row {
    /// Its table.
    pub table: Table,
    /// Its number.
    pub row: usize,
    /// What it held.
    pub old: Vec<u8>,
    /// What it holds.
    pub new: Vec<u8>,
}

/// What was done.
#[derive(Clone, Debug, PartialEq, Eq)]
pub enum Deed {
    /// A run.
    Run {
        /// Its policy.
        policy: u64,
        /// Where it began.
        from: [u64; 3],
        /// Its answer, where it ended and what it counted.
        run: Run,
        /// The position that was saved before.
        saved: Option<Box<Saved>>,
        /// The objects that its redirects used.
        reused: Vec<OstFid>,
    },
    /// A mending of names.
    Mending(Mended),
    /// Parent rows of an edition before 2026-07 made wider.
    Conversion(Conversion),
    /// An undo.
    Undo {
        /// When that was done which it took back.
        undoes: String,
        /// Of which tables.
        of: Group,
    },
}

/// What a conversion did. It changes no row but for its length, and is not taken back.
#[derive(Clone, Copy, Debug, PartialEq, Eq)]
pub struct Conversion {
    /// How many parent rows there are.
    pub rows: u64,
    /// The bytes of each before.
    pub from: u64,
    /// The bytes of each after.
    pub to: u64,
}

/// Which tables are changed together.
#[derive(Clone, Copy, Debug, PartialEq, Eq)]
pub enum Group {
    /// Those of files and objects, by runs.
    Files,
    /// Those of names, by mendings.
    Names,
}

impl Group {
    /// The tables.
    pub fn tables(self) -> &'static [Table] {
        match self {
            Group::Files => Tables::ALL,
            Group::Names => Names::ALL,
        }
    }

    /// What changes them, in a word.
    pub fn changed_by(self) -> &'static str {
        match self {
            Group::Files => Tables::CHANGED_BY,
            Group::Names => Names::CHANGED_BY,
        }
    }

    /// The group whose first table is among the members of a value.
    fn of_value(value: &Value) -> Group {
        match value.get(Table::Entries.file()) {
            Some(_) => Group::Names,
            None => Group::Files,
        }
    }
}

/// An entry of the log.
#[derive(Clone, Debug, PartialEq, Eq)]
pub struct Entry {
    /// When it was saved.
    pub when: String,
    /// By which version.
    pub version: String,
    /// What was done.
    pub deed: Deed,
    /// The rows that it changed, in their order.
    pub rows: Vec<Row>,
    /// The digests of the tables of its group before it.
    pub before: Vec<Digest>,
    /// The digests of the tables of its group after it.
    pub after: Vec<Digest>,
}

/// What was changed, in words.
pub enum Changes {
    /// Files and objects.
    Files(Vec<Change>),
    /// Names.
    Names(Vec<NameChange>),
}

/// The digests of tables, in their order.
pub fn digests<Of: Together>(tables: &Of) -> Vec<Digest> {
    let digest = |table: &Table| Digest::of(tables.of(*table));
    Of::ALL.iter().map(digest).collect()
}

impl Entry {
    /// What is done now, from these tables to those.
    pub fn new<Of: Together>(deed: Deed, old: &Of, new: &Of) -> Entry {
        let rows = match deed {
            Deed::Conversion(_) => Vec::new(),
            _ => rows(old, new),
        };
        Entry {
            when: clock::now(),
            version: VERSION.to_string(),
            deed,
            rows,
            before: digests(old),
            after: digests(new),
        }
    }

    /// The tables without what was done, where they are as it left them.
    pub fn taken_back<Of: Together>(&self, tables: &Of) -> Option<Of> {
        let mut tables = tables.clone();
        for row in &self.rows {
            let size = row.table.row_bytes();
            let bytes = tables.of_mut(row.table)?;
            let place = bytes
                .get_mut(row.row.checked_mul(size)?..)?
                .get_mut(..size)?;
            if place != row.new || place.len() != row.old.len() {
                return None;
            }
            place.copy_from_slice(&row.old);
        }
        (digests(&tables) == self.before).then_some(tables)
    }

    /// Which tables it changed.
    pub fn group(&self) -> Group {
        self.deed.group()
    }

    /// What was changed, in words.
    pub fn changes(&self) -> Changes {
        match self.group() {
            Group::Files => Changes::Files(self.file_changes()),
            Group::Names => Changes::Names(self.name_changes()),
        }
    }

    /// The rows of files and objects compared, each under its own number.
    fn file_changes(&self) -> Vec<Change> {
        let mut list = changes(&self.site(|row| &row.old), &self.site(|row| &row.new));
        let numbers = Table::ALL.map(|table| {
            let rows = self.rows.iter().filter(|row| row.table == table);
            (table, rows.map(|row| row.row).collect::<Vec<usize>>())
        });
        for change in &mut list {
            let of_table = numbers.iter().find(|(table, _)| *table == change.table);
            let number = of_table.and_then(|(_, numbers)| numbers.get(change.row));
            change.row = number.copied().unwrap_or(change.row);
            change.undone = self.is_undo();
        }
        list
    }

    /// The rows as they were, or as they are, as tables of their own.
    fn site(&self, bytes: fn(&Row) -> &[u8]) -> Site {
        let mut tables = Tables::default();
        for row in &self.rows {
            let table = tables.of_mut(row.table);
            table.into_iter().for_each(|table| table.extend(bytes(row)));
        }
        Site::new(&tables)
    }

    fn name_changes(&self) -> Vec<NameChange> {
        name_changes_of(&self.rows, self.is_undo())
    }

    fn is_undo(&self) -> bool {
        matches!(self.deed, Deed::Undo { .. })
    }

    /// The line of the entry.
    pub fn line(&self) -> String {
        Json::Object(self.members()).line()
    }

    /// The members of the line.
    pub fn members(&self) -> Vec<(&'static str, Json)> {
        let mut members = vec![
            ("what", Json::text(self.what())),
            ("when", Json::text(&self.when)),
            ("version", Json::text(&self.version)),
        ];
        members.extend(self.deed.members());
        members.extend([
            (
                "rows",
                Json::List(self.rows.iter().map(Row::json).collect()),
            ),
            ("before", digests_json(self.group(), &self.before)),
            ("after", digests_json(self.group(), &self.after)),
        ]);
        members
    }

    /// A word for what was done.
    pub fn what(&self) -> &'static str {
        match self.deed {
            Deed::Run { .. } => "run",
            Deed::Mending(_) => "mending",
            Deed::Conversion(_) => CONVERSION,
            Deed::Undo { .. } => "undo",
        }
    }

    /// The entry that a line, without its end, is.
    pub fn parse(line: &str) -> Option<Entry> {
        let value = Value::parse(line)?;
        let deed = Deed::of_value(&value)?;
        let group = deed.group();
        let row = |row| Row::of_value(row).filter(|row| group.tables().contains(&row.table));
        let rows = value.list("rows")?.iter().map(row);
        let entry = Entry {
            when: value.text("when")?.to_string(),
            version: value.text("version")?.to_string(),
            rows: rows.collect::<Option<_>>()?,
            before: digests_of(group, value.get("before")?)?,
            after: digests_of(group, value.get("after")?)?,
            deed,
        };
        (value.text("what")? == entry.what()).then_some(entry)
    }
}

/// What differs between tables of names, told of a mending or of an undo.
pub fn name_changes(old: &Names, new: &Names, undone: bool) -> Vec<NameChange> {
    name_changes_of(&rows(old, new), undone)
}

fn name_changes_of(rows: &[Row], undone: bool) -> Vec<NameChange> {
    let of_row = |row: &Row| {
        let values = Values {
            old: &row.old[..],
            new: &row.new[..],
        };
        name_changes::of_row(row.table, row.row, values, undone)
    };
    let mut list: Vec<NameChange> = rows.iter().flat_map(of_row).collect();
    name_changes::sort(&mut list);
    list
}

/// The rows that differ. Neither a run nor a mending adds or moves rows.
fn rows<Of: Together>(old: &Of, new: &Of) -> Vec<Row> {
    let mut list = Vec::new();
    for &table in Of::ALL {
        let pairs = old.rows(table).zip(new.rows(table)).enumerate();
        let differ = pairs.filter(|(_, (old, new))| old != new);
        list.extend(differ.map(|(row, (old, new))| Row {
            table,
            row,
            old: old.to_vec(),
            new: new.to_vec(),
        }));
    }
    list
}

impl Row {
    fn json(&self) -> Json {
        let digits = |bytes: &[u8]| Json::Text(hex::encode(self.table.written(bytes)));
        Json::Object(vec![
            ("table", Json::text(self.table.file())),
            ("row", Json::Number(self.row as u64)),
            ("old", digits(&self.old)),
            ("new", digits(&self.new)),
        ])
    }

    fn of_value(value: &Value) -> Option<Row> {
        let file = value.text("table")?;
        let table = Table::every().find(|table| table.file() == file)?;
        let bytes = |name| table.whole_row(hex::decode(value.text(name)?)?);
        Some(Row {
            table,
            row: value.number("row")?.try_into().ok()?,
            old: bytes("old")?,
            new: bytes("new")?,
        })
    }
}

impl Table {
    /// Whether its rows end with room that is seldom used.
    fn has_room(self) -> bool {
        matches!(self, Table::Parents | Table::Entries | Table::Children)
    }

    /// What the log has of a row: where it ends with room, the bytes up to the last that isn't
    /// zero.
    fn written(self, row: &[u8]) -> &[u8] {
        let last = row.iter().rposition(|&byte| byte != 0);
        match self.has_room() {
            true => &row[..last.map_or(0, |at| at + 1)],
            false => row,
        }
    }

    /// The row that those bytes were. A parent row of an edition before 2026-07 is one with
    /// less room.
    fn whole_row(self, written: Vec<u8>) -> Option<Vec<u8>> {
        let mut row = written;
        if self.has_room() && row.len() < self.row_bytes() {
            row.resize(self.row_bytes(), 0);
        }
        (row.len() == self.row_bytes()).then_some(row)
    }
}

impl Deed {
    fn group(&self) -> Group {
        match self {
            Deed::Run { .. } | Deed::Conversion(_) => Group::Files,
            Deed::Mending(_) => Group::Names,
            Deed::Undo { of, .. } => *of,
        }
    }

    fn members(&self) -> Vec<(&'static str, Json)> {
        match self {
            Deed::Undo { undoes, .. } => vec![("undoes", Json::text(undoes))],
            Deed::Mending(mended) => mended.members(),
            Deed::Conversion(conversion) => conversion.members(),
            Deed::Run {
                policy,
                from,
                run,
                saved,
                reused,
            } => vec![
                ("policy", Json::Number(*policy)),
                ("from", numbers_json(from)),
                ("to", numbers_json(&run.position)),
                ("steps", Json::Number(run.steps)),
                ("answer", Json::Number(run.answer.into())),
                ("repairs", run.repairs_json()),
                (
                    "saved",
                    Json::maybe(saved.as_ref().map(|saved| saved.to_text())),
                ),
                (
                    "reused",
                    Json::List(reused.iter().map(Json::text).collect()),
                ),
            ],
        }
    }

    fn of_value(value: &Value) -> Option<Deed> {
        if let Some(undoes) = value.text("undoes") {
            return Some(Deed::Undo {
                undoes: undoes.to_string(),
                of: Group::of_value(value.get("before")?),
            });
        }
        match value.text("what")? {
            "mending" => Mended::of_value(value).map(Deed::Mending),
            CONVERSION => Conversion::of_value(value).map(Deed::Conversion),
            _ => Deed::run_of_value(value),
        }
    }

    fn run_of_value(value: &Value) -> Option<Deed> {
        Some(Deed::Run {
            policy: value.number("policy")?,
            from: numbers_of(value.list("from")?)?,
            run: Run {
                answer: value.number("answer")?.try_into().ok()?,
                position: numbers_of(value.list("to")?)?,
                steps: value.number("steps")?,
                repairs: counts_of(value.get("repairs")?, value.text("version")?)?,
            },
            saved: match value.get("saved")? {
                Value::Null => None,
                _ => Some(Box::new(Saved::parse(value.text("saved")?.as_bytes())?)),
            },
            reused: reused_of(value)?,
        })
    }
}

impl Conversion {
    /// Of so many rows of an edition before 2026-07.
    pub fn of_rows(rows: usize) -> Conversion {
        Conversion {
            rows: rows as u64,
            from: narrow::BYTES as u64,
            to: Table::Parents.row_bytes() as u64,
        }
    }

    /// What it did, for people.
    pub fn words(&self) -> String {
        let Conversion { rows, from, to } = self;
        let rows = match rows {
            1 => "1 parent row".to_string(),
            _ => format!("{rows} parent rows"),
        };
        format!("{rows} widened from {from} to {to} bytes")
    }

    /// What it did, for machines.
    pub fn members(&self) -> Vec<(&'static str, Json)> {
        let values = [self.rows, self.from, self.to].map(Json::Number);
        CONVERTED.into_iter().zip(values).collect()
    }

    fn of_value(value: &Value) -> Option<Conversion> {
        let [rows, from, to] = CONVERTED.map(|name| value.number(name));
        Some(Conversion {
            rows: rows?,
            from: from?,
            to: to?,
        })
    }
}

/// The version without the class WRONG-OST: its runs made no repair of it, and its log doesn't
/// count them.
const WITHOUT: (&str, &str) = ("0.1.0", "WRONG-OST");

/// The repairs by class, as this version counts them.
fn counts_of(repairs: &Value, version: &str) -> Option<[u64; COUNTED.len()]> {
    let count = |class: &&str| match repairs.get(class) {
        None if (version, *class) == WITHOUT => Some(0),
        _ => repairs.number(class),
    };
    let counts: Option<Vec<u64>> = COUNTED.iter().map(count).collect();
    counts?.try_into().ok()
}

/// The objects that a run's redirects used. Versions before 0.9.0 used none, and their entries
/// don't tell any.
fn reused_of(value: &Value) -> Option<Vec<OstFid>> {
    let fid = |value: &Value| match value {
        Value::Text(text) => Fid::parse(text).map(OstFid),
        _ => None,
    };
    match value.get("reused") {
        None => Some(Vec::new()),
        Some(_) => value.list("reused")?.iter().map(fid).collect(),
    }
}

fn numbers_json(numbers: &[u64; 3]) -> Json {
    Json::List(numbers.iter().copied().map(Json::Number).collect())
}

fn numbers_of(values: &[Value]) -> Option<[u64; 3]> {
    let number = |value: &Value| match value {
        Value::Number(number) => Some(*number),
        _ => None,
    };
    let numbers: Option<Vec<u64>> = values.iter().map(number).collect();
    numbers?.try_into().ok()
}

fn digests_json(group: Group, digests: &[Digest]) -> Json {
    let tables = group.tables().iter().zip(digests);
    let members = tables.map(|(table, digest)| (table.file(), Json::text(digest)));
    Json::Object(members.collect())
}

fn digests_of(group: Group, value: &Value) -> Option<Vec<Digest>> {
    let digest = |table: &Table| Digest::parse(value.text(table.file())?);
    group.tables().iter().map(digest).collect()
}
