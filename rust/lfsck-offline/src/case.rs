//! A case: a directory with the tables, read by many commands or changed by one, and saved at
//! once. Whoever opens it completes a save that was cut off, so after opening the files are all
//! old or all new.

use std::fs;
use std::path::Path;

use crate::answers::require_wide;
use crate::digest::Digest;
use crate::disk::{Disk, trouble};
use crate::fid::OstFid;
use crate::history::{Conversion, Deed, Entry, Group, LOG};
use crate::journal::{Change, Edit};
use crate::lock::{Share, lock};
use crate::mended::Mended;
use crate::names::Names;
use crate::outcome::Failure;
use crate::permissions::{Access, Permissions};
use crate::quoted::on_one_line;
use crate::save::{self, MOST_LOG, OF_CASE, OF_NAMES, SAMPLE_LINK};
use crate::saved::{self, EDITION, Held, POSITION, Saved};
use crate::slices::Run;
use crate::tables::{Table, Tables, Together};

/// The room for an entry of the log and a position that a run is at least to have.
const LOG_ROOM: usize = 64 << 10;

/// A case that is open.
pub struct Case {
    disk: Disk,
    /// What a journal that cannot be completed here says; its files are read through it.
    through: Vec<Change>,
}

impl Case {
    /// Opens a case to be read, together with others who read it.
    pub fn open(directory: &Path) -> Result<Case, Failure> {
        let disk = Disk::open(directory)?;
        lock(disk.opened(), directory, Share::Readers)?;
        let mut through = Vec::new();
        while save::pending(&disk)?.is_some() {
            lock(disk.opened(), directory, Share::Nobody)?;
            let recovered = recover(&disk);
            lock(disk.opened(), directory, Share::Readers)?;
            match recovered {
                Err(failure) if !disk.denied() => return Err(failure),
                Err(_) => {
                    through = save::pending(&disk)?.unwrap_or_default();
                    tell(&disk, "a save was cut off; it is read from its journal");
                    break;
                }
                Ok(()) => (),
            }
        }
        // What stays is removed by the next save.
        let _ = save::clear(&disk);
        Ok(Case { disk, through })
    }

    /// Opens a case to be changed, with nobody else.
    pub fn open_alone(directory: &Path) -> Result<Case, Failure> {
        let disk = Disk::open(directory)?;
        lock(disk.opened(), directory, Share::Nobody)?;
        recover(&disk)?;
        let _ = save::clear(&disk);
        Ok(Case {
            disk,
            through: Vec::new(),
        })
    }

    /// A directory has none of the files of a case yet, or is missing.
    pub fn require_none(directory: &Path) -> Result<(), Failure> {
        match directory.exists() {
            true => require_free(&Disk::open(directory)?, &OF_CASE),
            false => Ok(()),
        }
    }

    /// Makes a case with these tables in a directory that has none of the files yet.
    pub fn make(directory: &Path, tables: &Tables) -> Result<(), Failure> {
        let changes = made(tables);
        Case::make_files(directory, changes, &OF_CASE)
    }

    /// Makes a case with these tables, names, and a linkEA beside them, in a directory that has none
    /// of the files yet.
    pub fn make_sample(
        directory: &Path,
        tables: &Tables,
        names: &Names,
        link: &[u8],
    ) -> Result<(), Failure> {
        let mut changes = made(tables);
        changes.extend(made(names));
        changes.push(made_file(SAMPLE_LINK, link));
        let files: Vec<&str> = [&OF_CASE[..], &OF_NAMES, &[SAMPLE_LINK]].concat();
        Case::make_files(directory, changes, &files)
    }

    fn make_files(directory: &Path, changes: Vec<Change>, free: &[&str]) -> Result<(), Failure> {
        fs::create_dir_all(directory).map_err(|error| trouble(directory, &error))?;
        let case = Case::open_alone(directory)?;
        require_free(&case.disk, free)?;
        // A save looks at the tables that are there already.
        let names = Table::NAMES.map(Table::file).into_iter();
        let found: Result<Vec<_>, _> = names.map(|name| case.disk.permissions(name)).collect();
        found?;
        save::save(&case.disk, &changes, Access::Own)
    }

    /// The bytes of a file, one more than `most` where it is longer; none where there is none.
    fn find(&self, name: &str, most: usize) -> Result<Option<Vec<u8>>, Failure> {
        let stands = || match self.disk.find(name, most)? {
            None => Ok(None),
            Some(found) => {
                save::require_ours(&self.disk, name, found.permissions)?;
                Ok(Some(found.bytes))
            }
        };
        let change = self.through.iter().find(|change| change.name == name);
        match change.map(|change| &change.edit) {
            None => stands(),
            Some(Edit::Put(bytes)) => Ok(Some(bytes.clone())),
            Some(Edit::Remove) => Ok(None),
            Some(Edit::Append { from, more }) => {
                let mut bytes = stands()?.unwrap_or_default();
                bytes.truncate(*from as usize);
                bytes.extend(more);
                Ok(Some(bytes))
            }
        }
    }

    /// The tables as they stand.
    pub fn tables(&self) -> Result<Tables, Failure> {
        let read = |table: Table| match self.find(table.file(), table.most_bytes())? {
            Some(bytes) => Ok(bytes),
            None => self.disk.read(table.file(), 0),
        };
        Ok(Tables {
            parents: read(Table::Parents)?,
            objects: read(Table::Objects)?,
            reserve: read(Table::Reserve)?,
        })
    }

    /// The tables as they stand, where the parent rows are as wide as this edition's.
    pub fn wide_tables(&self) -> Result<Tables, Failure> {
        let tables = self.tables()?;
        require_wide(&tables)?;
        Ok(tables)
    }

    /// The tables of names as they stand; none where the case has neither.
    pub fn names(&self) -> Result<Option<Names>, Failure> {
        let read = |table: Table| self.find(table.file(), table.most_bytes());
        match (read(Table::Entries)?, read(Table::Children)?) {
            (Some(entries), Some(children)) => Ok(Some(Names { entries, children })),
            (None, None) => Ok(None),
            (None, Some(_)) => Err(self.half(Table::Entries, Table::Children)),
            (Some(_), None) => Err(self.half(Table::Children, Table::Entries)),
        }
    }

    /// One table of names is missing, and the other is there.
    fn half(&self, missing: Table, there: Table) -> Failure {
        let path = self.disk.path(missing.file());
        Failure::files(format!(
            "{}: there is no such file, and {} is there; names need both",
            path.display(),
            there.file()
        ))
    }

    /// What stands in the file of the saved position.
    pub fn held(&self) -> Result<Held, Failure> {
        let bytes = self.find(POSITION, saved::MOST_BYTES)?;
        Ok(bytes.map_or(Held::Nothing, |bytes| Held::of(&bytes)))
    }

    /// The saved position of this edition, if there is one.
    pub fn position(&self) -> Result<Option<Saved>, Failure> {
        let path = self.disk.path(POSITION);
        let refused = |what: &str| {
            let path = path.display();
            Failure::refused(format!("{path}: {what}; --from-start begins without it"))
        };
        match self.held()? {
            Held::Nothing => Ok(None),
            Held::Own(saved) => Ok(Some(saved)),
            Held::Other(edition) => Err(refused(&format!(
                "saved by {edition}; this is edition {EDITION}, and no run is taken up across \
                 editions"
            ))),
            Held::Broken => Err(refused("this is no saved position")),
        }
    }

    /// The entries of the log, in their order.
    pub fn log(&self) -> Result<Vec<Entry>, Failure> {
        let bytes = self.find(LOG, MOST_LOG)?.unwrap_or_default();
        let lines = bytes.split_inclusive(|&byte| byte == b'\n').enumerate();
        lines.map(|(at, line)| self.entry(at, line)).collect()
    }

    /// The last entry of the log.
    pub fn last_entry(&self) -> Result<Option<Entry>, Failure> {
        self.last_that(|_| true)
    }

    /// The last entry of the log that changed these tables.
    pub fn last_of(&self, group: Group) -> Result<Option<Entry>, Failure> {
        self.last_that(|entry| entry.group() == group)
    }

    /// The last entry of the log that is such; those behind it must be entries too.
    fn last_that(&self, is_such: impl Fn(&Entry) -> bool) -> Result<Option<Entry>, Failure> {
        let bytes = self.find(LOG, MOST_LOG)?.unwrap_or_default();
        let lines = bytes.split_inclusive(|&byte| byte == b'\n').enumerate();
        let lines: Vec<(usize, &[u8])> = lines.collect();
        for (at, line) in lines.into_iter().rev() {
            let entry = self.entry(at, line)?;
            if is_such(&entry) {
                return Ok(Some(entry));
            }
        }
        Ok(None)
    }

    fn entry(&self, at: usize, line: &[u8]) -> Result<Entry, Failure> {
        let text = line.strip_suffix(b"\n").map(str::from_utf8);
        let entry = text.and_then(|text| Entry::parse(text.ok()?));
        entry.ok_or_else(|| {
            let path = self.disk.path(LOG);
            let line = at + 1;
            Failure::refused(format!(
                "{}: line {line} is no entry of the log",
                path.display()
            ))
        })
    }

    /// Looks for what would stop a save of these tables, before there is something to save.
    pub fn prepare<Of: Together>(&self, tables: &Of) -> Result<(), Failure> {
        self.prepare_for(tables, Of::CHANGED_BY)
    }

    fn prepare_for<Of: Together>(&self, tables: &Of, what: &str) -> Result<(), Failure> {
        let [one, other] = tables.lengths();
        // The journal with both, and one new file beside its old one.
        let room = one + other + one.max(other) + LOG_ROOM;
        save::prepare(&self.disk, room, what)?;
        self.require_log_room(LOG_ROOM)
    }

    /// Saves what a run has changed of the tables and the position, with an entry in the log
    /// where it changed a table, all or none.
    pub fn save_run(
        &self,
        old: &Tables,
        new: &Tables,
        saved: &Saved,
        from: [u64; 3],
        run: Run,
        reused: Vec<OstFid>,
    ) -> Result<(), Failure> {
        let deed = Deed::Run {
            policy: saved.policy,
            from,
            run,
            saved: self
                .find(POSITION, saved::MOST_BYTES)?
                .and_then(|bytes| Saved::parse(&bytes))
                .map(Box::new),
            reused,
        };
        let line = (old != new).then(|| Entry::new(deed, old, new).line());
        self.require_log_room(line.as_ref().map_or(0, String::len))?;
        let position = self.position_change(Some(saved))?;
        self.save(old, new, position, line)
    }

    /// Saves parent rows that were made wider, with an entry in the log, and removes the saved
    /// position, all or none. Without such rows the position alone goes.
    pub fn save_conversion(
        &self,
        old: &Tables,
        new: &Tables,
        conversion: Option<Conversion>,
    ) -> Result<(), Failure> {
        self.prepare_for(new, "conversion")?;
        let entry = |conversion| Entry::new(Deed::Conversion(conversion), old, new);
        let line = conversion.map(|conversion| entry(conversion).line());
        self.require_log_room(line.as_ref().map_or(0, String::len))?;
        let position = self.position_change(None)?;
        self.save(old, new, position, line)
    }

    /// Saves what a mending has changed of the names, with an entry in the log, all or none.
    pub fn save_mending(&self, old: &Names, new: &Names, mended: Mended) -> Result<(), Failure> {
        let line = Entry::new(Deed::Mending(mended), old, new).line();
        self.require_log_room(line.len())?;
        self.save(old, new, None, Some(line))
    }

    /// The log can still be read with so many bytes more.
    fn require_log_room(&self, more: usize) -> Result<(), Failure> {
        let length = self.disk.length(LOG)?.unwrap_or(0);
        if length + more as u64 <= MOST_LOG as u64 {
            return Ok(());
        }
        let path = self.disk.path(LOG);
        Err(Failure::files(format!(
            "{}: with this it would be longer than {MOST_LOG} bytes; nothing is saved",
            path.display()
        )))
    }

    /// Saves tables that an undo has made of these; of a run, with the position from before it.
    pub fn save_undo<Of: Together>(
        &self,
        old: &Of,
        new: &Of,
        undone: &Entry,
    ) -> Result<(), Failure> {
        let deed = Deed::Undo {
            undoes: undone.when.clone(),
            of: undone.group(),
        };
        let line = Entry::new(deed, old, new).line();
        self.require_log_room(line.len())?;
        let position = match &undone.deed {
            Deed::Run { saved, .. } => self.position_change(saved.as_deref())?,
            Deed::Mending(_) => None,
            Deed::Conversion(_) | Deed::Undo { .. } => return Ok(()),
        };
        self.save(old, new, position, Some(line))
    }

    fn save<Of: Together>(
        &self,
        old: &Of,
        new: &Of,
        position: Option<Change>,
        line: Option<String>,
    ) -> Result<(), Failure> {
        let access = self.require_unchanged(old)?;
        let line = line.map(|line| save::append(&self.disk, line));
        let mut changes: Vec<Change> = line.transpose()?.into_iter().collect();
        for &table in Of::ALL {
            if old.of(table) != new.of(table) {
                changes.push(Change {
                    name: table.file().to_string(),
                    before: Some(Digest::of(old.of(table))),
                    edit: Edit::Put(new.of(table).to_vec()),
                });
            }
        }
        changes.extend(position);
        match changes.len() {
            0 => Ok(()),
            _ => save::save(&self.disk, &changes, access),
        }
    }

    /// What makes the saved position this one, or none, where it is not so already.
    fn position_change(&self, saved: Option<&Saved>) -> Result<Option<Change>, Failure> {
        let before = save::stand(&self.disk, POSITION)?.map(|stand| stand.digest);
        let text = saved.map(|saved| saved.to_text().into_bytes());
        let after = text.as_deref().map(Digest::of);
        Ok((before != after).then(|| Change {
            name: POSITION.to_string(),
            before,
            edit: text.map_or(Edit::Remove, Edit::Put),
        }))
    }

    /// The tables are still those that were read; who may read what tells of all tables of the
    /// case.
    fn require_unchanged<Of: Together>(&self, tables: &Of) -> Result<Access, Failure> {
        let find = |table: Table| self.disk.find(table.file(), table.most_bytes());
        let permissions = |table: Table| match find(table)? {
            Some(found) if found.bytes == tables.of(table) => Ok(found.permissions),
            _ => {
                let path = self.disk.path(table.file());
                let message = format!("{}: changed meanwhile; nothing is saved", path.display());
                Err(Failure::files(message))
            }
        };
        let own: Result<Vec<Permissions>, Failure> =
            Of::ALL.iter().map(|table| permissions(*table)).collect();
        let others = Table::every().filter(|table| !Of::ALL.contains(table));
        let others: Result<Vec<Option<Permissions>>, Failure> = others
            .map(|table| self.disk.permissions(table.file()))
            .collect();
        let all: Vec<Permissions> = own?
            .into_iter()
            .chain(others?.into_iter().flatten())
            .collect();
        Ok(Access::strictest(&all))
    }
}

/// The files of tables that are new.
fn made<Of: Together>(tables: &Of) -> Vec<Change> {
    let made = |table: &Table| made_file(table.file(), tables.of(*table));
    Of::ALL.iter().map(made).collect()
}

/// A file that is new.
fn made_file(name: &str, bytes: &[u8]) -> Change {
    Change {
        name: name.to_string(),
        before: None,
        edit: Edit::Put(bytes.to_vec()),
    }
}

/// None of these files is there.
fn require_free(disk: &Disk, names: &[&str]) -> Result<(), Failure> {
    match names.iter().find(|name| disk.has(name)) {
        None => Ok(()),
        Some(name) => {
            let path = disk.path(name);
            let message = format!("{}: this is already there", path.display());
            Err(Failure::files(message))
        }
    }
}

/// Completes a save that was cut off after its journal was in place, and says so. A journal is
/// in place only when the disk has all of it; one that is not whole was spoilt by somebody else.
fn recover(disk: &Disk) -> Result<(), Failure> {
    if let Some(changes) = save::pending(disk)? {
        save::complete(disk, &changes)?;
        tell(disk, "completed a save that was cut off");
    }
    Ok(())
}

/// A line on standard error about the case.
fn tell(disk: &Disk, what: &str) {
    let line = format!("{}: {what}", disk.directory().display());
    eprintln!("lfsck-offline: {}", on_one_line(&line));
}

#[cfg(test)]
mod tests {
    use numbers::call;

    use super::*;
    use crate::save::JOURNAL;

    const ENTRIES: &str = "entries.tbl";
    const CHILDREN: &str = "children.tbl";

    const RUN: Run = Run {
        answer: 0,
        position: [3, 0, 0],
        steps: 2,
        repairs: [0; call::COUNTED],
    };

    /// A case with a row in each table, in a directory of its own.
    fn case(name: &str) -> (Case, Tables, std::path::PathBuf) {
        let name = format!("lfsck-offline-case-{name}-{}", std::process::id());
        let directory = std::env::temp_dir().join(name);
        let tables = Tables {
            parents: vec![0; numbers::parent::BYTES],
            objects: vec![0; 46],
            reserve: vec![1; 16],
        };
        Case::make(&directory, &tables).expect("a new case");
        let case = Case::open_alone(&directory).expect("the case");
        (case, tables, directory)
    }

    #[test]
    fn what_somebody_changed_meanwhile_is_not_overwritten() {
        let (case, old, directory) = case("meanwhile");
        let mut new = old.clone();
        new.objects[1] = 1;
        let saved = Saved::new([3, 0, 0], 0, &new);
        for table in Table::ALL {
            let path = directory.join(table.file());
            fs::write(&path, b"other").expect("the file");
            let failure = case
                .save_run(&old, &new, &saved, [1, 0, 0], RUN, Vec::new())
                .expect_err("a refusal");
            assert!(failure.message.contains(table.file()), "{failure:?}");
            assert!(failure.message.contains("nothing is saved"), "{failure:?}");
            assert_eq!(fs::read(&path).expect("the file"), b"other");
            assert!(!case.disk.has(POSITION) && !case.disk.has(JOURNAL) && !case.disk.has(LOG));
            fs::write(&path, old.of(table)).expect("the file");
        }
        case.save_run(&old, &new, &saved, [1, 0, 0], RUN, Vec::new())
            .expect("a save");
        assert_eq!(case.tables().expect("the tables"), new);
        assert_eq!(case.position().expect("the position"), Some(saved));
        fs::remove_dir_all(&directory).expect("the directory");
    }

    #[test]
    fn names_that_somebody_changed_meanwhile_are_not_overwritten() {
        let (case, _, directory) = case("names-meanwhile");
        let old = Names {
            entries: vec![0; 293],
            children: vec![0; 4130],
        };
        let mut new = old.clone();
        new.children[0] = 1;
        let mended = Mended::new(0, [1, 0, 0, 0, 1]);
        for table in Table::NAMES {
            fs::write(directory.join(ENTRIES), &old.entries).expect("the file");
            fs::write(directory.join(CHILDREN), &old.children).expect("the file");
            let path = directory.join(table.file());
            fs::write(&path, b"other").expect("the file");
            let failure = case
                .save_mending(&old, &new, mended)
                .expect_err("a refusal");
            assert!(failure.message.contains(table.file()), "{failure:?}");
            assert!(failure.message.contains("nothing is saved"), "{failure:?}");
            assert_eq!(fs::read(&path).expect("the file"), b"other");
            assert!(!case.disk.has(JOURNAL) && !case.disk.has(LOG));
        }
        fs::write(directory.join(CHILDREN), &old.children).expect("the file");
        case.save_mending(&old, &new, mended).expect("a save");
        assert_eq!(case.names().expect("the names"), Some(new));
        fs::remove_dir_all(&directory).expect("the directory");
    }

    /// A log that would be too long to be read again is not written.
    #[test]
    fn a_log_without_room_for_a_mending_is_left() {
        let (case, _, directory) = case("names-log-room");
        let old = Names {
            entries: vec![0; 293],
            children: vec![0; 4130],
        };
        let mut new = old.clone();
        new.children[0] = 1;
        fs::write(directory.join(ENTRIES), &old.entries).expect("the file");
        fs::write(directory.join(CHILDREN), &old.children).expect("the file");
        let log = fs::File::create(directory.join(LOG)).expect("the file");
        log.set_len(MOST_LOG as u64 - 100).expect("the length");
        let mended = Mended::new(0, [1, 0, 0, 0, 1]);
        let failure = case
            .save_mending(&old, &new, mended)
            .expect_err("a refusal");
        assert!(failure.message.contains(LOG), "{failure:?}");
        assert!(failure.message.ends_with("nothing is saved"), "{failure:?}");
        assert_eq!(case.names().expect("the names"), Some(old));
        fs::remove_dir_all(&directory).expect("the directory");
    }

    /// The same of a run and of a conversion, also before there is something to save.
    #[test]
    fn a_log_without_room_for_a_run_is_left() {
        let (case, old, directory) = case("log-room");
        let mut new = old.clone();
        new.objects[1] = 1;
        let log = fs::File::create(directory.join(LOG)).expect("the file");
        log.set_len(MOST_LOG as u64 - 100).expect("the length");
        let saved = Saved::new([3, 0, 0], 0, &new);
        let run = case.save_run(&old, &new, &saved, [1, 0, 0], RUN, Vec::new());
        let conversion = Conversion::of_rows(1);
        let conversion = case.save_conversion(&old, &new, Some(conversion));
        for refused in [run, conversion, case.prepare(&old)] {
            let failure = refused.expect_err("a refusal");
            assert!(failure.message.contains(LOG), "{failure:?}");
            assert!(failure.message.ends_with("nothing is saved"), "{failure:?}");
        }
        assert_eq!(case.tables().expect("the tables"), old);
        assert!(!case.disk.has(POSITION) && !case.disk.has(JOURNAL));
        fs::remove_dir_all(&directory).expect("the directory");
    }

    #[test]
    fn what_has_not_changed_is_not_written() {
        let (case, old, directory) = case("unchanged");
        let saved = Saved::new([3, 0, 0], 0, &old);
        case.save_run(&old, &old, &saved, [1, 0, 0], RUN, Vec::new())
            .expect("a save");
        let time = |name| fs::metadata(case.disk.path(name)).and_then(|it| it.modified());
        let before = time(POSITION).expect("the position");
        case.save_run(&old, &old, &saved, [1, 0, 0], RUN, Vec::new())
            .expect("nothing to save");
        assert_eq!(time(POSITION).expect("the position"), before);
        fs::remove_dir_all(&directory).expect("the directory");
    }
}
