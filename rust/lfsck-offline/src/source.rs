//! Where the input of a command comes from: a file, or standard input.

use std::ffi::OsString;
use std::fmt;
use std::fs::File;
use std::io::{self, Read};
use std::path::PathBuf;

use crate::disk::trouble;
use crate::outcome::Failure;
use crate::quoted;

/// The word that stands for standard input.
pub const STANDARD: &str = "-";

/// A file or standard input.
#[derive(Clone, Debug, PartialEq, Eq)]
pub enum Source {
    /// Standard input.
    Standard,
    /// A file, of any kind that can be read.
    File(PathBuf),
}

impl Source {
    /// The source that a word of the command line stands for.
    pub fn of_word(word: OsString) -> Source {
        if word == STANDARD {
            Source::Standard
        } else {
            Source::File(word.into())
        }
    }

    /// All bytes, but one more than `most` where there are more.
    pub fn read(&self, most: usize) -> Result<Vec<u8>, Failure> {
        let bytes = self.open().and_then(|input| up_to(input, most));
        bytes.map_err(|error| self.trouble(&error))
    }

    /// All bytes; more than `most` are refused.
    pub fn read_all(&self, most: usize) -> Result<Vec<u8>, Failure> {
        let bytes = self.read(most)?;
        match bytes.len() > most {
            true => Err(Failure::refused(format!(
                "{self}: this is longer than {most} bytes"
            ))),
            false => Ok(bytes),
        }
    }

    /// Opens it to be read piece by piece.
    pub fn open(&self) -> io::Result<Box<dyn Read>> {
        Ok(match self {
            Source::Standard => Box::new(io::stdin().lock()),
            Source::File(path) => Box::new(File::open(path)?),
        })
    }

    /// The bytes of a plain file.
    pub fn length(&self) -> Option<u64> {
        match self {
            Source::Standard => None,
            Source::File(path) => {
                let metadata = std::fs::metadata(path).ok()?;
                metadata.is_file().then_some(metadata.len())
            }
        }
    }

    /// Its name for people, which cannot steer a terminal.
    pub fn shown(&self) -> String {
        match self {
            Source::Standard => self.to_string(),
            Source::File(path) => quoted::path(path),
        }
    }

    /// The line for an error.
    pub fn trouble(&self, error: &io::Error) -> Failure {
        match self {
            Source::Standard => Failure::files(format!("{self}: {error}")),
            Source::File(path) if error.kind() == io::ErrorKind::IsADirectory => {
                trouble(path, &io::Error::other("this is a directory"))
            }
            Source::File(path) => trouble(path, error),
        }
    }
}

fn up_to(from: impl Read, most: usize) -> io::Result<Vec<u8>> {
    let mut bytes = Vec::new();
    from.take(most as u64 + 1).read_to_end(&mut bytes)?;
    Ok(bytes)
}

impl fmt::Display for Source {
    fn fmt(&self, out: &mut fmt::Formatter<'_>) -> fmt::Result {
        match self {
            Source::Standard => out.write_str("standard input"),
            Source::File(path) => path.display().fmt(out),
        }
    }
}
