//! Plain files and directories, opened and made without following a link.
//!
//! What was opened is asked what it is, so nobody can put another thing in its place between
//! the look and the opening.

use std::fs::{File, OpenOptions};
use std::io;
use std::os::unix::fs::OpenOptionsExt;
use std::path::Path;

#[cfg(not(all(target_os = "linux", target_arch = "x86_64")))]
compile_error!("the numbers below are those of x86-64 Linux; name those of this system");

/// Open at once, also where the other end of a pipe is missing.
const O_NONBLOCK: i32 = 0o4_000;
/// Open a directory or nothing.
const O_DIRECTORY: i32 = 0o200_000;
/// Do not open a link.
const O_NOFOLLOW: i32 = 0o400_000;
/// A socket cannot be opened.
const ENXIO: i32 = 6;
/// A link was not followed.
const ELOOP: i32 = 40;

/// How a file is opened.
#[derive(Clone, Copy, Debug, PartialEq, Eq)]
pub enum Use {
    /// To be read.
    Read,
    /// To be read and written.
    Write,
}

/// Opens a plain file.
pub fn open(path: &Path, how: Use) -> io::Result<File> {
    let mut options = OpenOptions::new();
    options.read(true).write(how == Use::Write);
    let opened = options.custom_flags(O_NOFOLLOW | O_NONBLOCK).open(path);
    let file = opened.map_err(|error| match error.raw_os_error() {
        Some(ELOOP | ENXIO) => not_plain(),
        _ if error.kind() == io::ErrorKind::IsADirectory => is_directory(),
        _ => error,
    })?;
    let metadata = file.metadata()?;
    if metadata.is_file() {
        Ok(file)
    } else if metadata.is_dir() {
        Err(is_directory())
    } else {
        Err(not_plain())
    }
}

/// Makes a file. It is an error if there is anything under the name, be it a link.
pub fn make(path: &Path, mode: u32) -> io::Result<File> {
    let mut options = OpenOptions::new();
    let options = options.write(true).create_new(true).mode(mode);
    options.custom_flags(O_NOFOLLOW).open(path)
}

/// Opens a directory; a link to one is followed, as people expect of a name that they give.
pub fn directory(path: &Path) -> io::Result<File> {
    let mut options = OpenOptions::new();
    let opened = options.read(true).custom_flags(O_DIRECTORY).open(path);
    opened.map_err(|error| match error.kind() {
        io::ErrorKind::NotADirectory => io::Error::other("this is not a directory"),
        _ => error,
    })
}

fn is_directory() -> io::Error {
    io::Error::other("this is a directory")
}

fn not_plain() -> io::Error {
    io::Error::other("this is not a plain file")
}
