//! What the sweeps meet.

use std::collections::BTreeSet;

use reference::fid::Fid;
use reference::link::{Link, Record};
use reference::names::{Child, Entry, LINK_ROOM, Mark, Namespace, visible_directories};

/// Something that a sweep met or did.
#[derive(Clone, Copy, Debug, PartialEq, Eq, PartialOrd, Ord)]
pub enum Met {
    /// A self FID was taken.
    Taken,
    /// An entry of a hidden directory had a FID before the one that gave it.
    TakenPastHidden,
    /// An entry of a visible directory had none before the one that gave it.
    TakenPastNone,
    /// A later entry of a visible directory has another.
    TakenBeforeOther,
    /// The self FID that was taken is that of a row as lent.
    TakenTwin,
    /// Only entries of hidden directories have a FID.
    OnlyHiddenHas,
    /// No entry has a FID.
    NoneHas,
    /// A child without self FID kept a record of a visible directory without entry.
    NoFidKept,
    /// A FID-in-dirent was written where there was none.
    WrittenNone,
    /// One was written over another.
    WrittenOther,
    /// That of an entry of a hidden directory stayed, though it is another.
    HiddenEntryKept,
    /// A child without linkEA got one.
    AppendedToNone,
    /// One without records got one.
    AppendedToEmpty,
    /// One with records got one.
    AppendedToSome,
    /// A child got several.
    AppendedSeveral,
    /// Two entries of a child had the same missing record.
    AppendedOnce,
    /// The linkEA is as long as the room.
    AppendedFull,
    /// The record of an entry of a hidden directory stayed missing.
    HiddenMissing,
    /// A record had no entry.
    RemovedNoEntry,
    /// Only another child's entry has the record.
    RemovedOtherChilds,
    /// A record stood before.
    RemovedRepeat,
    /// All records went.
    Emptied,
    /// Records went, and others stayed.
    RemovedSome,
    /// A child without entries lost records.
    RemovedWithoutEntries,
    /// A child got a record and lost one.
    AppendedAndRemoved,
    /// A record of a hidden directory without entry stayed.
    HiddenRecordKept,
    /// A repeat of a record of a hidden directory stayed.
    HiddenRepeatKept,
    /// An entry is in a directory that the pass gave a linkEA and that was hidden.
    HiddenGotLink,
    /// An entry is in a directory whose FID a row took, and that is nowhere as lent.
    HiddenGotRow,
}

use Met::*;

impl Met {
    /// All of them.
    pub const ALL: [Met; 29] = [
        Taken,
        TakenPastHidden,
        TakenPastNone,
        TakenBeforeOther,
        TakenTwin,
        OnlyHiddenHas,
        NoneHas,
        NoFidKept,
        WrittenNone,
        WrittenOther,
        HiddenEntryKept,
        AppendedToNone,
        AppendedToEmpty,
        AppendedToSome,
        AppendedSeveral,
        AppendedOnce,
        AppendedFull,
        HiddenMissing,
        RemovedNoEntry,
        RemovedOtherChilds,
        RemovedRepeat,
        Emptied,
        RemovedSome,
        RemovedWithoutEntries,
        AppendedAndRemoved,
        HiddenRecordKept,
        HiddenRepeatKept,
        HiddenGotLink,
        HiddenGotRow,
    ];
}

/// A child before and after a mending that was finished, with its entries as lent.
struct Look<'names> {
    before: &'names Namespace,
    visible: &'names BTreeSet<Fid>,
    row: usize,
    entries: Vec<&'names Entry>,
    old: &'names Child,
    new: &'names Child,
}

/// Everything that a finished mending met.
pub fn met(before: &Namespace, after: &Namespace, marks: &[Mark]) -> BTreeSet<Met> {
    let visible = visible_directories(&before.children, marks);
    let mut met = BTreeSet::new();
    for row in 0..before.children.len() {
        let look = Look {
            before,
            visible: &visible,
            row,
            entries: entries_of(before, row),
            old: &before.children[row],
            new: &after.children[row],
        };
        let things = look.first().into_iter().chain(look.second());
        let things = things.chain(look.third()).chain(look.fourth());
        met.extend(things.filter(|(is_so, _)| *is_so).map(|(_, thing)| thing));
    }
    let anew = hidden_anew(before, after, &visible);
    met.extend(
        anew.into_iter()
            .filter_map(|(is_so, it)| is_so.then_some(it)),
    );
    met
}

fn entries_of(names: &Namespace, row: usize) -> Vec<&Entry> {
    let entries = names.entries.iter();
    entries.filter(|entry| entry.child == row).collect()
}

fn records_of(child: &Child) -> &[Record] {
    let link = child.link.as_ref();
    link.map_or(&[], |link: &Link| &link.records)
}

impl Look<'_> {
    fn is_visible(&self, record: &Record) -> bool {
        self.visible.contains(&record.parent)
    }

    /// Whether the child is one that is mended.
    fn is_mended(&self) -> bool {
        self.new.own.is_some()
    }

    fn has_entry(&self, record: &Record) -> bool {
        self.entries.iter().any(|entry| entry.record == *record)
    }

    /// Sweep 1.
    fn first(&self) -> [(bool, Met); 8] {
        let nameless = self.old.own.is_none();
        let taken = nameless && self.new.own.is_some();
        let gives = |entry: &&&Entry| self.is_visible(&entry.record) && entry.fid.is_some();
        let giver = self.entries.iter().position(|entry| gives(&entry));
        let (earlier, later) = self.entries.split_at(giver.unwrap_or(0));
        let mut hidden = earlier.iter().filter(|it| !self.is_visible(&it.record));
        let mut visible = earlier.iter().filter(|it| self.is_visible(&it.record));
        let has = self.entries.iter().filter(|entry| entry.fid.is_some());
        let stays = nameless && !taken && !self.entries.is_empty();
        let twin = self.before.children.iter().any(|it| it.own == self.new.own);
        let mut records = records_of(self.old).iter();
        let stray = records.any(|it| self.is_visible(it) && !self.has_entry(it));
        [
            (taken, Taken),
            (taken && hidden.any(|it| it.fid.is_some()), TakenPastHidden),
            (taken && visible.any(|it| it.fid.is_none()), TakenPastNone),
            (
                taken && later.iter().filter(gives).any(|it| it.fid != self.new.own),
                TakenBeforeOther,
            ),
            (taken && twin, TakenTwin),
            (stays && has.clone().count() > 0, OnlyHiddenHas),
            (stays && has.count() == 0, NoneHas),
            (stays && stray, NoFidKept),
        ]
    }

    /// Sweep 2.
    fn second(&self) -> [(bool, Met); 3] {
        let visible = |entry: &&Entry| self.is_visible(&entry.record);
        let other = |entry: &Entry| entry.fid.is_some() && entry.fid != self.new.own;
        let mut entries = self.entries.iter().copied();
        let mended = self.is_mended();
        let none = entries.clone().filter(visible).any(|it| it.fid.is_none());
        let written = entries.clone().filter(visible).any(other);
        let kept = entries.any(|entry| !visible(&entry) && other(entry));
        [
            (mended && none, WrittenNone),
            (mended && written, WrittenOther),
            (mended && kept, HiddenEntryKept),
        ]
    }

    /// The records of entries of visible directories that the child lacked.
    fn missing(&self) -> Vec<&Record> {
        let records = self.entries.iter().map(|entry| &entry.record);
        let missing = records.filter(|it| self.is_visible(it) && !self.old.has(it));
        missing.filter(|_| self.is_mended()).collect()
    }

    /// Sweep 3.
    fn third(&self) -> [(bool, Met); 7] {
        let missing = self.missing();
        let mut once: Vec<&Record> = Vec::new();
        let repeated = missing.iter().any(|record| {
            let again = once.contains(record);
            once.push(record);
            again
        });
        let some = !missing.is_empty();
        let length = self.old.link.as_ref().map(Link::total);
        let more: usize = missing.iter().map(|record| record.length()).sum();
        let grown = length.map(|length| length + more);
        let full = some && !repeated && grown == Some(LINK_ROOM);
        let empty = records_of(self.old).is_empty();
        let mut hidden = self
            .entries
            .iter()
            .filter(|it| !self.is_visible(&it.record));
        let hidden = hidden.any(|entry| !self.new.has(&entry.record));
        [
            (some && length.is_none(), AppendedToNone),
            (some && length.is_some() && empty, AppendedToEmpty),
            (some && !empty, AppendedToSome),
            (missing.len() > 1 && !repeated, AppendedSeveral),
            (repeated, AppendedOnce),
            (full, AppendedFull),
            (hidden, HiddenMissing),
        ]
    }

    /// Sweep 4.
    fn fourth(&self) -> [(bool, Met); 9] {
        let records = records_of(self.old);
        let visible = |record: &&Record| self.is_mended() && self.is_visible(record);
        let hidden = |record: &&Record| !self.is_visible(record);
        let alone = records.iter().filter(|it| !self.has_entry(it));
        let others = self.before.entries.iter().filter(|it| it.child != self.row);
        let other_has = |it: &&Record| others.clone().any(|entry| entry.record == **it);
        let repeats = records
            .iter()
            .enumerate()
            .filter(|(at, it)| records[..*at].contains(it))
            .map(|(_, it)| it);
        let gone = alone.clone().filter(visible).count() > 0;
        let repeated = repeats.clone().filter(visible).count() > 0;
        let is_left = !records_of(self.new).is_empty();
        let emptied = gone && !is_left;
        [
            (gone, RemovedNoEntry),
            (
                alone.clone().filter(visible).any(|it| other_has(&it)),
                RemovedOtherChilds,
            ),
            (repeated, RemovedRepeat),
            (emptied, Emptied),
            (gone && is_left, RemovedSome),
            (gone && self.entries.is_empty(), RemovedWithoutEntries),
            (
                (gone || repeated) && !self.missing().is_empty(),
                AppendedAndRemoved,
            ),
            (alone.filter(hidden).count() > 0, HiddenRecordKept),
            (repeats.filter(hidden).count() > 0, HiddenRepeatKept),
        ]
    }
}

/// Entries in directories that would be visible if they were judged anew.
fn hidden_anew(before: &Namespace, after: &Namespace, visible: &BTreeSet<Fid>) -> [(bool, Met); 2] {
    let row_in = |names: &Namespace, fid| {
        let mut rows = names.children.iter();
        rows.position(|child| child.own == Some(fid))
    };
    let parents = before.entries.iter().map(|entry| entry.record.parent);
    let hidden: Vec<Fid> = parents.filter(|it| !visible.contains(it)).collect();
    let got_link = hidden.iter().any(|&fid| {
        let row = row_in(before, fid);
        row.is_some_and(|row| after.children[row].link.is_some())
    });
    let got_row = hidden
        .iter()
        .any(|&fid| row_in(before, fid).is_none() && row_in(after, fid).is_some());
    [(got_link, HiddenGotLink), (got_row, HiddenGotRow)]
}
