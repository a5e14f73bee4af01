//! Several files of a case changed together.
//!
//! A save writes all that is to be done into one file, the journal, and renames it into place;
//! that is the moment of the save. Then it is done to each file, and the journal removed. What
//! was cut off is completed from the journal, as often as it is cut off again.

use crate::digest::Digest;
use crate::disk::{Disk, Found};
use crate::history::LOG;
use crate::journal::{self, Change, Edit};
use crate::outcome::Failure;
use crate::permissions::{Access, Permissions};
use crate::saved::POSITION;
use crate::tables::Table;

/// The journal of a save.
pub const JOURNAL: &str = "lfsck-offline.journal";
/// The files that a new case has, or gets by its runs.
pub const OF_CASE: [&str; 5] = [LOG, "parents.tbl", "objects.tbl", "reserve.tbl", POSITION];
/// The tables of names, which a case may have.
pub const OF_NAMES: [&str; 2] = ["entries.tbl", "children.tbl"];
/// A linkEA beside the tables of a sample, which is made with them and belongs to no case.
pub const SAMPLE_LINK: &str = "link.hex";
/// What the names of the tool's own files begin with.
const OWN: &str = "lfsck-offline.";
/// More than a table, or a journal of them all and of an entry of the log, can have.
const MOST_BYTES: usize = 2 << 30;
/// A log that is longer is left to people.
pub const MOST_LOG: usize = 1 << 30;
/// So many bytes are enough to know the end of a log again.
const TAIL: u64 = 4096;

/// A file as it stands: of what contents, and who may read it.
pub struct Stand {
    /// Of its contents.
    pub digest: Digest,
    /// Who may read and write it.
    pub permissions: Permissions,
}

/// The files that a save may change.
fn saved() -> impl Iterator<Item = &'static str> {
    OF_CASE.into_iter().chain(OF_NAMES)
}

impl Stand {
    fn of(found: Found) -> Stand {
        Stand {
            digest: Digest::of(&found.bytes),
            permissions: found.permissions,
        }
    }
}

/// A file as it stands, contents and permissions by one opening; none where there is none.
pub fn stand(disk: &Disk, name: &str) -> Result<Option<Stand>, Failure> {
    Ok(disk.find(name, MOST_BYTES)?.map(Stand::of))
}

/// What a journal that is in place says; none where there is no journal.
pub fn pending(disk: &Disk) -> Result<Option<Vec<Change>>, Failure> {
    // A journal may be long: one that is not believed is not read either.
    if let Some(permissions) = disk.permissions(JOURNAL)? {
        require_ours(disk, JOURNAL, permissions)?;
    }
    let Some(journal) = disk.find(JOURNAL, MOST_BYTES)? else {
        return Ok(None);
    };
    require_ours(disk, JOURNAL, journal.permissions)?;
    match journal::decode(&journal.bytes) {
        Some(changes) => Ok(Some(changes)),
        None => Err(spoilt(disk, JOURNAL, "this is no whole journal")),
    }
}

/// In a directory where one may make files but not replace others', the word of a file of the
/// tool's own is taken from this user, from root and from an owner of the tables: nobody else
/// may say what stands in them. Elsewhere whoever can make such a file can replace the tables.
/// Tables of names, which anybody may add to a case, count where there are no others.
pub fn require_ours(disk: &Disk, name: &str, permissions: Permissions) -> Result<(), Failure> {
    if is_table(name) || !disk.keeps_files_apart() {
        return Ok(());
    }
    let mut tables = permissions_of(disk, &Table::ALL)?;
    if tables.is_empty() {
        tables = permissions_of(disk, &Table::NAMES)?;
    }
    if permissions.is_trusted(&tables) {
        return Ok(());
    }
    let path = disk.path(name);
    Err(Failure::files(format!(
        "{}: this belongs to another user, who owns none of the tables",
        path.display()
    )))
}

/// Those of the tables that are there.
fn permissions_of(disk: &Disk, tables: &[Table]) -> Result<Vec<Permissions>, Failure> {
    let permissions = tables.iter().map(|table| disk.permissions(table.file()));
    let permissions: Result<Vec<_>, _> = permissions.collect();
    Ok(permissions?.into_iter().flatten().collect())
}

/// Clears away what a save that was cut off before its journal was in place has left.
pub fn clear(disk: &Disk) -> Result<(), Failure> {
    for name in saved().chain([JOURNAL, SAMPLE_LINK]) {
        disk.clear(&unfinished(name))?;
    }
    Ok(())
}

/// Looks for what would stop a save of so many bytes: files of ours that are no plain files,
/// a directory that cannot be written, a disk without room.
pub fn prepare(disk: &Disk, bytes: usize, what: &str) -> Result<(), Failure> {
    for name in saved() {
        if let Some(permissions) = disk.permissions(name)? {
            require_ours(disk, name, permissions)?;
        }
    }
    clear(disk)?;
    disk.reserve(&unfinished(JOURNAL), bytes, what)
}

/// A line to be added at the end of the log as it stands.
pub fn append(disk: &Disk, line: String) -> Result<Change, Failure> {
    let from = disk.length(LOG)?.unwrap_or(0);
    let start = from.saturating_sub(TAIL);
    let tail = disk.part(LOG, start, (from - start) as usize)?;
    Ok(Change {
        name: LOG.to_string(),
        before: tail.map(|tail| Digest::of(&tail.bytes)),
        edit: Edit::Append {
            from,
            more: line.into_bytes(),
        },
    })
}

/// Makes changes, all or none. The journal has the contents of them all, so it lets in no more
/// people than the strictest of the tables.
pub fn save(disk: &Disk, changes: &[Change], access: Access) -> Result<(), Failure> {
    let unfinished = unfinished(JOURNAL);
    disk.write(&unfinished, &journal::encode(changes), access)?;
    disk.rename(&unfinished, JOURNAL)?;
    let completed = disk.sync().and_then(|()| complete(disk, changes));
    completed.map_err(|failure| Failure {
        message: format!(
            "{}; the save is completed when the case is next opened",
            failure.message
        ),
        ..failure
    })
}

/// Does what a journal that is in place says, and removes it. Files that are neither old nor new
/// were changed by somebody since, and are not overwritten.
pub fn complete(disk: &Disk, changes: &[Change]) -> Result<(), Failure> {
    let stands: Result<Vec<_>, _> = changes.iter().map(|it| known(disk, it)).collect();
    let stands = stands?;
    let strictest = strictest(disk, changes, &stands)?;
    for (change, stand) in changes.iter().zip(&stands) {
        let access = match stand {
            _ if !is_table(&change.name) && change.name != SAMPLE_LINK => strictest,
            Some(permissions) => Access::Like(*permissions),
            None => Access::Usual,
        };
        make(disk, change, stand.is_some(), access)?;
    }
    disk.sync()?;
    disk.remove(JOURNAL)?;
    disk.sync()
}

fn make(disk: &Disk, change: &Change, stands: bool, access: Access) -> Result<(), Failure> {
    let name = &change.name;
    match &change.edit {
        Edit::Put(bytes) => put(disk, name, bytes, access),
        Edit::Remove if stands => disk.remove(name),
        Edit::Remove => Ok(()),
        Edit::Append { from, more } => {
            if disk.append(name, *from, more, access)? {
                return Ok(());
            }
            // Others could read along, so it is a new file.
            let mut whole = disk.read(name, MOST_LOG)?;
            whole.truncate(*from as usize);
            whole.extend(more);
            put(disk, name, &whole, access)
        }
    }
}

/// Puts a new file in the place of an old one.
fn put(disk: &Disk, name: &str, bytes: &[u8], access: Access) -> Result<(), Failure> {
    let unfinished = unfinished(name);
    disk.write(&unfinished, bytes, access)?;
    disk.rename(&unfinished, name)
}

/// The file that a change is for, where it is old or new.
fn known(disk: &Disk, change: &Change) -> Result<Option<Permissions>, Failure> {
    let name = change.name.as_str();
    let changed = || spoilt(disk, name, "changed since a save was cut off");
    let ours = saved().any(|ours| ours == name) || (name == SAMPLE_LINK && change.before.is_none());
    if !ours || matches!(change.edit, Edit::Append { .. }) != (name == LOG) {
        return Err(changed());
    }
    let put = match &change.edit {
        Edit::Put(bytes) => Some(bytes),
        Edit::Remove => None,
        Edit::Append { from, more } => {
            return known_log(disk, change.before, *from, more)?.ok_or_else(changed);
        }
    };
    let stand = stand(disk, name)?;
    let digest = stand.as_ref().map(|stand| stand.digest);
    if digest != change.before && digest != put.map(|bytes| Digest::of(bytes)) {
        return Err(changed());
    }
    Ok(stand.map(|stand| stand.permissions))
}

/// The log, where it is as it was with nothing or a part of its new line after it. What a
/// machine that stopped has not brought to the disk may be zeros.
fn known_log(
    disk: &Disk,
    before: Option<Digest>,
    from: u64,
    more: &[u8],
) -> Result<Option<Option<Permissions>>, Failure> {
    let start = from.saturating_sub(TAIL);
    let kept = (from - start) as usize;
    let Some(found) = disk.part(LOG, start, kept + more.len())? else {
        return Ok((before.is_none() && from == 0).then_some(None));
    };
    let Some((tail, rest)) = found.bytes.split_at_checked(kept) else {
        return Ok(None);
    };
    let old = before.unwrap_or(Digest::of(&[])) == Digest::of(tail);
    let ours = |(found, ours): (&u8, &u8)| found == ours || *found == 0;
    let known = old && rest.len() <= more.len() && rest.iter().zip(more).all(ours);
    Ok(known.then_some(Some(found.permissions)))
}

/// For files that tell of all tables: the tables among the changes as they were found, and the
/// others as they are.
fn strictest(
    disk: &Disk,
    changes: &[Change],
    stands: &[Option<Permissions>],
) -> Result<Access, Failure> {
    let mut all = Vec::new();
    for table in Table::every() {
        match changes.iter().position(|it| it.name == table.file()) {
            Some(at) => all.extend(stands[at]),
            None => all.extend(disk.permissions(table.file())?),
        }
    }
    Ok(Access::strictest(&all))
}

/// Whether a file of a case is one of its tables.
fn is_table(name: &str) -> bool {
    Table::every().any(|table| table.file() == name)
}

/// The name of a file while it is still being written: the tool's own, whatever else there is in
/// the directory.
fn unfinished(name: &str) -> String {
    let name = name.strip_prefix(OWN).unwrap_or(name);
    format!("{OWN}{name}.new")
}

/// A journal that cannot be completed: some tables may be as before its save, some as after it.
fn spoilt(disk: &Disk, name: &str, what: &str) -> Failure {
    let path = disk.path(name);
    Failure::files(format!(
        "{}: {what}; the tables may be of two moments, some as before the save and some as after \
         it; remove {JOURNAL} to keep the files as they are, and lfsck-offline check shows what \
         the log knows of them",
        path.display()
    ))
}
