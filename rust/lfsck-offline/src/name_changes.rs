//! What a mending of names has changed: rows before and after it, compared.

use crate::change::Values;
use crate::fid::{Fid, MdtFid};
use crate::json::Json;
use crate::name_rows::{Child, Entry, Name, fid_words};
use crate::tables::Table;

/// A change of one row.
#[derive(Clone, Debug, PartialEq, Eq)]
pub struct NameChange {
    /// The row, of an entry or of a child.
    pub row: usize,
    /// What differs.
    pub what: NameWhat,
    /// Whether an undo made it, and no mending.
    pub undone: bool,
}

/// What differs.
#[derive(Clone, Debug, PartialEq, Eq)]
pub enum NameWhat {
    /// The self FID of a child.
    SelfFid(Values<Option<MdtFid>>),
    /// The FID-in-dirent of an entry.
    DirentFid {
        /// The entry.
        at: Name,
        /// What it was and is.
        fid: Values<Option<MdtFid>>,
    },
    /// A record that a child has and hadn't.
    Added(Record),
    /// A record that a child had and hasn't.
    Gone(Record),
}

/// A record of a child.
#[derive(Clone, Debug, PartialEq, Eq)]
pub struct Record {
    /// The self FID of the child.
    pub own: Option<MdtFid>,
    /// What the record says.
    pub name: Name,
    /// Whether the child has, or had, an equal one beside it.
    pub is_repeat: bool,
}

/// What differs in a row, told of a mending or of an undo.
pub fn of_row(table: Table, row: usize, rows: Values<&[u8]>, undone: bool) -> Vec<NameChange> {
    let whats = match table {
        Table::Entries => of_entry(rows),
        Table::Children => of_child(rows, undone),
        _ => None,
    };
    let change = |what| NameChange { row, what, undone };
    whats.into_iter().flatten().map(change).collect()
}

fn of_entry(rows: Values<&[u8]>) -> Option<Vec<NameWhat>> {
    let (old, new) = (Entry::read(rows.old)?, Entry::read(rows.new)?);
    let fid = Values {
        old: old.fid,
        new: new.fid,
    };
    let what = NameWhat::DirentFid { at: new.at, fid };
    Some(fid.differ().then_some(what).into_iter().collect())
}

fn of_child(rows: Values<&[u8]>, undone: bool) -> Option<Vec<NameWhat>> {
    let (old, new) = (Child::read(rows.old)?, Child::read(rows.new)?);
    let own = Values {
        old: old.own,
        new: new.own,
    };
    let mut whats: Vec<NameWhat> = own
        .differ()
        .then_some(NameWhat::SelfFid(own))
        .into_iter()
        .collect();
    let (records, others) = (old.records(), new.records());
    // What a mending leaves is what was there, less some, with others behind it.
    let (gone, added) = match undone {
        false => compared(&records, &others),
        true => {
            let (added, gone) = compared(&others, &records);
            (gone, added)
        }
    };
    let own = new.own.or(old.own);
    let record = |name: Name| Record {
        own,
        is_repeat: records.contains(&name) && others.contains(&name),
        name,
    };
    whats.extend(added.into_iter().map(|name| NameWhat::Added(record(name))));
    whats.extend(gone.into_iter().map(|name| NameWhat::Gone(record(name))));
    Some(whats)
}

/// Of records and what a mending made of them, those that are gone, repeats too, and those that
/// came.
fn compared(before: &[Name], after: &[Name]) -> (Vec<Name>, Vec<Name>) {
    let stayed = after.iter().filter(|name| before.contains(name));
    let mut stayed = stayed.peekable();
    let gone = before
        .iter()
        .filter(|name| stayed.next_if(|it| it == name).is_none());
    let came = after.iter().filter(|name| !before.contains(name));
    (gone.cloned().collect(), came.cloned().collect())
}

/// In the order of the sweeps, and of the rows within each.
pub fn sort(list: &mut [NameChange]) {
    list.sort_by_key(|change| (change.what.sweep(), change.row));
}

impl NameWhat {
    /// The sweep that makes such a change.
    fn sweep(&self) -> u8 {
        match self {
            NameWhat::SelfFid(_) => 1,
            NameWhat::DirentFid { .. } => 2,
            NameWhat::Added(_) => 3,
            NameWhat::Gone(_) => 4,
        }
    }

    fn kind(&self) -> &'static str {
        match self {
            NameWhat::SelfFid(_) => "self_fid",
            NameWhat::DirentFid { .. } => "fid_in_dirent",
            NameWhat::Added(_) => "record_added",
            NameWhat::Gone(_) => "record_removed",
        }
    }

    fn table(&self) -> Table {
        match self {
            NameWhat::DirentFid { .. } => Table::Entries,
            _ => Table::Children,
        }
    }

    /// The name that it is about.
    fn name(&self) -> Option<&Name> {
        match self {
            NameWhat::SelfFid(_) => None,
            NameWhat::DirentFid { at, .. } => Some(at),
            NameWhat::Added(record) | NameWhat::Gone(record) => Some(&record.name),
        }
    }

    /// The self FID of the child that is changed; none of an entry.
    fn own(&self) -> Option<MdtFid> {
        match self {
            NameWhat::SelfFid(own) => own.new.or(own.old),
            NameWhat::DirentFid { .. } => None,
            NameWhat::Added(record) | NameWhat::Gone(record) => record.own,
        }
    }

    fn fids(&self) -> Values<Option<MdtFid>> {
        match self {
            NameWhat::SelfFid(fid) | NameWhat::DirentFid { fid, .. } => *fid,
            NameWhat::Added(_) | NameWhat::Gone(_) => Values {
                old: None,
                new: None,
            },
        }
    }
}

impl NameChange {
    /// For people.
    pub fn words(&self) -> String {
        let row = self.row;
        match &self.what {
            NameWhat::SelfFid(own) => format!("child {row}: self FID {}", self.fid_words(*own)),
            NameWhat::DirentFid { at, fid } => {
                let (at, fid) = (at.words(), self.fid_words(*fid));
                format!("entry {row}, {at}: FID-in-dirent {fid}")
            }
            NameWhat::Added(record) => self.record_words(record, ["appended", "put back"]),
            NameWhat::Gone(record) => self.record_words(record, ["removed", "taken away"]),
        }
    }

    /// What became of a FID: taken by a child, written into an entry, or put back.
    fn fid_words(&self, Values { old, new }: Values<Option<MdtFid>>) -> String {
        let done = match self.what {
            _ if self.undone => "put back",
            NameWhat::SelfFid(_) => "taken",
            _ => "written",
        };
        match (old, new) {
            (Some(old), Some(new)) => format!("{new} {done}, it was {old}"),
            (None, Some(new)) => format!("{new} {done}, it had none"),
            (old, None) => format!("{} taken away", fid_words(old)),
        }
    }

    /// A record, with the word for a mending and that for an undo.
    fn record_words(&self, record: &Record, [mended, undone]: [&str; 2]) -> String {
        let done = if self.undone { undone } else { mended };
        let repeat = if record.is_repeat { ", a repeat" } else { "" };
        let (row, own) = (self.row, fid_words(record.own));
        let name = record.name.words();
        format!("child {row}, {own}: record {done}, {name}{repeat}")
    }

    /// For machines.
    pub fn json(&self) -> Json {
        let name = self.what.name();
        let Values { old, new } = self.what.fids();
        let mut members = vec![
            ("kind", Json::text(self.what.kind())),
            ("table", Json::text(self.what.table().file())),
            ("row", Json::Number(self.row as u64)),
            ("self_fid", Json::maybe(self.what.own())),
        ];
        members.extend(name.map_or_else(no_name, Name::members));
        members.extend([
            ("old", Json::maybe(old)),
            ("new", Json::maybe(new)),
            ("what", Json::text(self.words())),
        ]);
        Json::Object(members)
    }

    /// Whether it concerns a file or a directory: it is the child, the directory, or a FID that was
    /// written or replaced.
    pub fn concerns(&self, fid: Fid) -> bool {
        let Values { old, new } = self.what.fids();
        let directory = self.what.name().map(|name| name.directory);
        let all = [self.what.own(), directory, old, new];
        all.into_iter().flatten().any(|known| known.0 == fid)
    }
}

fn no_name() -> [(&'static str, Json); 3] {
    ["directory", "name", "name_hex"].map(|member| (member, Json::Null))
}

/// The changes below each other.
pub fn text(list: &[NameChange]) -> String {
    let line = |change: &NameChange| format!("  {}\n", change.words());
    list.iter().map(line).collect()
}

#[cfg(test)]
mod tests {
    use super::*;
    use crate::history::name_changes;
    use crate::names::Names;
    use crate::tables::Together;
    use difftest::Random;
    use difftest::names::{random_names, to_bytes};
    use std::collections::BTreeMap;

    /// The rows of both tables as they are read.
    type Rows = (Vec<Entry>, Vec<(Option<MdtFid>, Vec<Name>)>);

    fn rows(names: &Names) -> Rows {
        let entries = names.rows(Table::Entries).filter_map(Entry::read);
        let children = names.rows(Table::Children).filter_map(Child::read);
        let children = children.map(|child| (child.own, child.records()));
        (entries.collect(), children.collect())
    }

    /// Makes a change, of something that stands there as the change says.
    fn make(change: &NameChange, (entries, children): &mut Rows) {
        let put = |place: &mut Option<MdtFid>, fid: Values<Option<MdtFid>>| {
            assert_eq!(*place, fid.old);
            *place = fid.new;
        };
        match &change.what {
            NameWhat::SelfFid(own) => put(&mut children[change.row].0, *own),
            NameWhat::DirentFid { at, fid } => {
                assert_eq!(entries[change.row].at, *at);
                put(&mut entries[change.row].fid, *fid);
            }
            NameWhat::Added(record) => children[change.row].1.push(record.name.clone()),
            NameWhat::Gone(record) => {
                let records = &mut children[change.row].1;
                // Of equal ones the last goes, and the first stays.
                let at = records.iter().rposition(|name| *name == record.name);
                records.remove(at.expect("a record"));
            }
        }
    }

    fn counts(list: &[NameChange]) -> [u64; 4] {
        let of_sweep = |sweep| list.iter().filter(|it| it.what.sweep() == sweep).count() as u64;
        [1, 2, 3, 4].map(of_sweep)
    }

    /// The records of each child in any order.
    fn unordered((entries, children): Rows) -> Rows {
        let mut children = children;
        let by_bytes = |name: &Name| (name.directory, name.name.clone());
        children
            .iter_mut()
            .for_each(|(_, records)| records.sort_by_key(by_bytes));
        (entries, children)
    }

    /// The changes of a mending are as many as the library counts, and made on the old rows they
    /// give the new ones; those of an undo lead back.
    #[test]
    fn the_changes_are_the_difference_of_the_tables() {
        let mut random = Random::for_test("name changes");
        let mut met = BTreeMap::new();
        for _ in 0..20_000 {
            let (entries, children) = to_bytes(&random_names(&mut random), &mut random);
            let before = Names { entries, children };
            let mut after = before.clone();
            let Ok(mended) = after.pass() else { continue };
            let list = name_changes(&before, &after, false);
            assert_eq!(counts(&list), mended.counts);
            let mut made = rows(&before);
            list.iter().for_each(|change| make(change, &mut made));
            assert_eq!(made, rows(&after));
            let back = name_changes(&after, &before, true);
            back.iter().for_each(|change| make(change, &mut made));
            assert_eq!(unordered(made), unordered(rows(&before)));
            let kinds = list.iter().map(|change| change.what.kind());
            kinds.for_each(|kind| *met.entry(kind).or_insert(0) += 1);
        }
        assert!(
            met.len() == 4 && met.values().all(|&count| count > 100),
            "{met:?}"
        );
    }

    fn change(what: NameWhat, undone: bool) -> String {
        let row = 7;
        NameChange { row, what, undone }.words()
    }

    #[test]
    fn a_fid_is_taken_written_and_put_back() {
        let [one, other] = [1, 2].map(|id| Some(MdtFid(Fid::new(0x2_0000_0401, id))));
        let values = |old, new| Values { old, new };
        let own = |old, new| NameWhat::SelfFid(values(old, new));
        let taken = "child 7: self FID [0x200000401:0x1:0x0] taken";
        assert_eq!(
            change(own(None, one), false),
            format!("{taken}, it had none")
        );
        assert_eq!(change(own(one, None), true), format!("{taken} away"));
        let at = Name {
            directory: MdtFid(Fid::new(0x2_0000_0007, 1)),
            name: b"a\x1b".to_vec(),
        };
        let dirent = |old, new| NameWhat::DirentFid {
            at: at.clone(),
            fid: values(old, new),
        };
        let entry = "entry 7, \"a\\x1b\" in [0x200000007:0x1:0x0]: FID-in-dirent";
        let words = format!("{entry} [0x200000401:0x1:0x0] written, it was [0x200000401:0x2:0x0]");
        assert_eq!(change(dirent(other, one), false), words);
        let words = format!("{entry} [0x200000401:0x2:0x0] put back, it was [0x200000401:0x1:0x0]");
        assert_eq!(change(dirent(one, other), true), words);
    }
}
