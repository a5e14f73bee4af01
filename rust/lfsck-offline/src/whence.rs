//! Where a row of a case that was taken in comes from.

use std::fmt;

use crate::json::Json;
use crate::line_fault::{named, shown};
use crate::source::Source;

/// The first line of an entry of a dump, or a line of a list of FIDs.
pub struct Whence<'call> {
    /// The name of the entry; a list has none.
    pub name: Option<&'call [u8]>,
    /// The dump or the list.
    pub source: &'call Source,
    /// The line there, counted from 1.
    pub line: u64,
}

impl fmt::Display for Whence<'_> {
    fn fmt(&self, out: &mut fmt::Formatter<'_>) -> fmt::Result {
        let (source, line) = (self.source.shown(), self.line);
        if let Some(name) = self.name {
            write!(out, "{}, ", shown(name))?;
        }
        write!(out, "line {line} of {source}")
    }
}

/// For machines: file, line and name as a text and in digits, each under the name that is given.
pub fn members(
    names: [&'static str; 4],
    whence: Option<&Whence<'_>>,
) -> impl Iterator<Item = (&'static str, Json)> {
    let [file, line, name, name_hex] = names;
    let place = [
        (file, Json::maybe(whence.map(|it| it.source))),
        (line, Json::maybe_number(whence.map(|it| it.line))),
    ];
    let entry = whence.and_then(|it| it.name);
    place.into_iter().chain(named([name, name_hex], entry))
}
