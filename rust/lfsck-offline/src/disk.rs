//! The file operations on a case, one by one, in the directory that was opened, whatever its
//! name stands for meanwhile.

use std::cell::Cell;
use std::fs::{self, File};
use std::io::{self, Read, Seek, SeekFrom, Write};
use std::os::fd::AsRawFd;
use std::os::unix::fs::MetadataExt;
use std::path::{Path, PathBuf};

use crate::hook::Hook;
use crate::outcome::Failure;
use crate::permissions::{Access, Permissions};
use crate::plain::{self, Use};

/// The bit of a directory like /tmp.
const STICKY: u32 = 0o1000;

/// The opened directory of a case.
pub struct Disk {
    /// Its name, for people.
    directory: PathBuf,
    opened: File,
    /// The way to its files.
    way: PathBuf,
    /// Whether the last operation that failed was one that is not allowed here.
    denied: Cell<bool>,
    hook: Hook,
}

/// A file as it was found, its contents and its permissions of one moment.
pub struct Found {
    /// Its bytes, one more than asked for where it is longer.
    pub bytes: Vec<u8>,
    /// Who may read and write it.
    pub permissions: Permissions,
}

impl Disk {
    /// Opens a directory.
    pub fn open(directory: &Path) -> Result<Disk, Failure> {
        let opened = plain::directory(directory).map_err(|error| trouble(directory, &error))?;
        Ok(Disk {
            directory: directory.to_path_buf(),
            way: way_to(&opened).unwrap_or_else(|| directory.to_path_buf()),
            opened,
            denied: Cell::new(false),
            hook: Hook::new(),
        })
    }

    /// The directory itself, to be locked.
    pub fn opened(&self) -> &File {
        &self.opened
    }

    /// Whether the last operation that failed was one that is not allowed here.
    pub fn denied(&self) -> bool {
        self.denied.get()
    }

    /// Whether here only the owner of a file may remove or replace it, whoever else may make
    /// files; where that cannot be told, yes.
    pub fn keeps_files_apart(&self) -> bool {
        let metadata = self.opened.metadata();
        metadata.map_or(true, |metadata| metadata.mode() & STICKY != 0)
    }

    /// The name of the directory, for people.
    pub fn directory(&self) -> &Path {
        &self.directory
    }

    /// The name of a file, for people.
    pub fn path(&self, name: &str) -> PathBuf {
        self.directory.join(name)
    }

    /// Whether there is something under a name.
    pub fn has(&self, name: &str) -> bool {
        fs::symlink_metadata(self.way.join(name)).is_ok()
    }

    /// A plain file, opened to be read; none where there is nothing under the name.
    fn look(&self, name: &str) -> Result<Option<File>, Failure> {
        match plain::open(&self.way.join(name), Use::Read) {
            Ok(file) => Ok(Some(file)),
            Err(error) if error.kind() == io::ErrorKind::NotFound => Ok(None),
            Err(error) => Err(trouble(&self.path(name), &error)),
        }
    }

    /// Something of a plain file; none where there is nothing under the name.
    fn of_file<Of>(
        &self,
        name: &str,
        read: impl FnOnce(File) -> io::Result<Of>,
    ) -> Result<Option<Of>, Failure> {
        let Some(file) = self.look(name)? else {
            return Ok(None);
        };
        let read = read(file).map_err(|error| trouble(&self.path(name), &error))?;
        Ok(Some(read))
    }

    /// Who may read and write a plain file; none where there is nothing under the name.
    pub fn permissions(&self, name: &str) -> Result<Option<Permissions>, Failure> {
        self.of_file(name, |file| Ok(Permissions::of(&file.metadata()?)))
    }

    /// The length of a plain file; none where there is nothing under the name.
    pub fn length(&self, name: &str) -> Result<Option<u64>, Failure> {
        self.of_file(name, |file| Ok(file.metadata()?.len()))
    }

    /// A plain file of at most so many bytes, or so many and one of a longer one; none where
    /// there is nothing under the name.
    pub fn find(&self, name: &str, most: usize) -> Result<Option<Found>, Failure> {
        self.part(name, 0, most)
    }

    /// The same from a place of the file on.
    pub fn part(&self, name: &str, at: u64, most: usize) -> Result<Option<Found>, Failure> {
        self.of_file(name, |mut file| {
            let permissions = Permissions::of(&file.metadata()?);
            file.seek(SeekFrom::Start(at))?;
            let mut bytes = Vec::new();
            file.take(most as u64 + 1).read_to_end(&mut bytes)?;
            Ok(Found { bytes, permissions })
        })
    }

    /// The bytes of a plain file that must be there.
    pub fn read(&self, name: &str, most: usize) -> Result<Vec<u8>, Failure> {
        match self.find(name, most)? {
            Some(found) => Ok(found.bytes),
            None => {
                let error = io::Error::from(io::ErrorKind::NotFound);
                Err(trouble(&self.path(name), &error))
            }
        }
    }

    /// Writes a new file and waits until the disk has it. What an earlier process left under
    /// the name is removed and not opened.
    pub fn write(&self, name: &str, bytes: &[u8], access: Access) -> Result<(), Failure> {
        let file = self.make(name, access)?;
        self.fill(name, file, bytes)
    }

    /// Writes bytes into a file from where it stands, and waits until the disk has them.
    fn fill(&self, name: &str, mut file: File, bytes: &[u8]) -> Result<(), Failure> {
        let (first, second) = bytes.split_at(bytes.len() / 2);
        self.operation("write half of", name, |_| file.write_all(first))?;
        self.operation("write the rest of", name, |_| file.write_all(second))?;
        self.operation("sync", name, |_| file.sync_all())
    }

    /// Writes bytes into a file after the first ones, so many, and waits until the disk has
    /// them; where there is no file, one is made. A file that others could read along with, or
    /// that this process may not write, is left as it is, and the answer is no.
    pub fn append(
        &self,
        name: &str,
        from: u64,
        bytes: &[u8],
        access: Access,
    ) -> Result<bool, Failure> {
        let file = match plain::open(&self.way.join(name), Use::Write) {
            Err(error) if error.kind() == io::ErrorKind::PermissionDenied => return Ok(false),
            Err(error) if error.kind() == io::ErrorKind::NotFound => self.make(name, access)?,
            Err(error) => return Err(trouble(&self.path(name), &error)),
            Ok(mut file) => {
                let metadata = file.metadata();
                let metadata = metadata.map_err(|error| trouble(&self.path(name), &error))?;
                if metadata.nlink() > 1 || !access.holds(Permissions::of(&metadata)) {
                    return Ok(false);
                }
                self.operation("extend", name, |_| file.seek(SeekFrom::Start(from)))?;
                file
            }
        };
        self.fill(name, file, bytes)?;
        Ok(true)
    }

    /// Sees whether there is room for a file of so many bytes, and removes it again. What is to be
    /// saved is a word for people.
    pub fn reserve(&self, name: &str, bytes: usize, what: &str) -> Result<(), Failure> {
        let mut file = self.make(name, Access::Own)?;
        let zeros = vec![0; bytes];
        let reserved = self.operation("reserve", name, |_| file.write_all(&zeros));
        let removed = self.remove(name);
        reserved.and(removed).map_err(|failure| Failure {
            message: format!("{}; so a {what} could not be saved", failure.message),
            ..failure
        })
    }

    fn make(&self, name: &str, access: Access) -> Result<File, Failure> {
        self.clear(name)?;
        self.operation("create", name, |path| {
            let file = plain::make(path, access.first_mode())?;
            access.give(&file)?;
            Ok(file)
        })
    }

    /// Removes what stands under a name of the tool's own, if anything does; a directory stays,
    /// and is trouble.
    pub fn clear(&self, name: &str) -> Result<(), Failure> {
        let path = self.way.join(name);
        match fs::symlink_metadata(&path) {
            Ok(metadata) if metadata.is_dir() => {
                let error = io::Error::other("this is a directory");
                Err(trouble(&self.path(name), &error))
            }
            Ok(_) => self.remove(name),
            Err(_) => Ok(()),
        }
    }

    /// Puts a file in the place of another, at once.
    pub fn rename(&self, from: &str, to: &str) -> Result<(), Failure> {
        let from = self.way.join(from);
        self.operation("rename to", to, |to| fs::rename(&from, to))
    }

    /// Removes a file.
    pub fn remove(&self, name: &str) -> Result<(), Failure> {
        self.operation("remove", name, |path| fs::remove_file(path))
    }

    /// Waits until the disk has the directory.
    pub fn sync(&self) -> Result<(), Failure> {
        self.operation("sync", ".", |_| self.opened.sync_all())
    }

    fn operation<Done>(
        &self,
        what: &str,
        name: &str,
        operation: impl FnOnce(&Path) -> io::Result<Done>,
    ) -> Result<Done, Failure> {
        let done = self
            .hook
            .before()
            .and_then(|()| operation(&self.way.join(name)));
        let done = done.map_err(|error| {
            self.denied.set(matches!(
                error.kind(),
                io::ErrorKind::PermissionDenied | io::ErrorKind::ReadOnlyFilesystem
            ));
            trouble(&self.path(name), &error)
        })?;
        self.hook.after(what, name);
        Ok(done)
    }
}

/// The way to a directory that is open, by its descriptor; none where there is no such way here.
fn way_to(opened: &File) -> Option<PathBuf> {
    let way = PathBuf::from(format!("/proc/self/fd/{}", opened.as_raw_fd()));
    let (there, here) = (fs::metadata(&way).ok()?, opened.metadata().ok()?);
    ((there.dev(), there.ino()) == (here.dev(), here.ino())).then_some(way)
}

/// One line about a file.
pub fn trouble(path: &Path, error: &io::Error) -> Failure {
    let reason = match error.kind() {
        io::ErrorKind::NotFound => "there is no such file or directory".to_string(),
        io::ErrorKind::PermissionDenied => "permission denied".to_string(),
        _ => error.to_string(),
    };
    Failure::files(format!("{}: {reason}", path.display()))
}
