//! A line of a file that is refused: one line for people, fields for machines.

use crate::dump::{Origin, beginning};
use crate::hex;
use crate::json::Json;
use crate::quoted::quoted;

/// How much of a line is shown to people, and handed to machines.
const SHOWN: usize = 100;
const HANDED: usize = 1024;

/// A line that is refused.
#[derive(Clone, Debug)]
pub struct LineFault {
    /// The file, or standard input.
    pub file: String,
    /// The line, counted from 1.
    pub line: u64,
    /// The library's number, where the library refused it.
    pub number: Option<u32>,
    /// Why.
    pub reason: String,
    /// The line, or the beginning of a long one.
    pub text: Vec<u8>,
    /// The entry of a dump that is open there.
    pub entry: Option<Origin>,
}

impl LineFault {
    /// The line for standard error. An empty line says nothing, so its entry is named.
    pub fn message(&self) -> String {
        let LineFault { file, line, .. } = self;
        let number = self.number.map(|it| format!(" is refused with {it}"));
        let number = number.unwrap_or_default();
        let shown = match &self.entry {
            Some(entry) if self.text.is_empty() => {
                let (name, first) = (shown(entry.name()), entry.line);
                format!("; the entry is {name}, from line {first} on")
            }
            _ => format!(": {}", shown(&self.text)),
        };
        format!("{file}: line {line}{number}: {}{shown}", self.reason)
    }

    /// For machines.
    pub fn json(&self) -> Json {
        let entry = self.entry.as_ref();
        let text = beginning(&self.text, HANDED);
        let mut members = vec![
            ("file", Json::text(&self.file)),
            ("line", Json::Number(self.line)),
            ("number", Json::maybe_number(self.number)),
            ("reason", Json::text(&self.reason)),
            ("text", Json::maybe(str::from_utf8(text).ok())),
            ("text_hex", Json::text(hex::encode(text))),
            (
                "entry_line",
                Json::maybe_number(entry.map(|entry| entry.line)),
            ),
        ];
        members.extend(named(["name", "name_hex"], entry.map(Origin::name)));
        Json::Object(members)
    }
}

/// The name of an entry for machines, as a text and in digits; each is a member of its own.
pub fn named(members: [&'static str; 2], name: Option<&[u8]>) -> [(&'static str, Json); 2] {
    let text = name.and_then(|name| str::from_utf8(name).ok());
    let digits = name.map(hex::encode);
    [
        (members[0], Json::maybe(text)),
        (members[1], Json::maybe(digits)),
    ]
}

/// Some bytes in quotes, or their beginning.
pub fn shown(bytes: &[u8]) -> String {
    match bytes.get(..SHOWN) {
        Some(first) if bytes.len() > SHOWN => format!("{}..", quoted(first)),
        _ => quoted(bytes),
    }
}
