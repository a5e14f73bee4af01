//! The journal: what is to be done to several files in one, so that they are saved together.
//!
//! A title, for each file a line with what is done, the name, the length of what follows, the
//! digest of what stands there before and the place, and then the bytes; a last line, and the
//! digest of all that. What is not exactly so is no journal.

use crate::digest::Digest;

const TITLE: &str = "lfsck-offline journal, format 2";
const NOTHING: &str = "nothing";
const END: &str = "end";

/// What is done to a file.
#[derive(Clone, Debug, PartialEq, Eq)]
pub enum Edit {
    /// It is to hold this.
    Put(Vec<u8>),
    /// After its first bytes, so many, this is to follow.
    Append {
        /// The bytes that stay.
        from: u64,
        /// What follows.
        more: Vec<u8>,
    },
    /// It is to go.
    Remove,
}

/// Something to be done to a file.
#[derive(Clone, Debug, PartialEq, Eq)]
pub struct Change {
    /// The file.
    pub name: String,
    /// Of what it holds before, of the last bytes that stay where something is appended; none
    /// where there is no such file.
    pub before: Option<Digest>,
    /// What is done to it.
    pub edit: Edit,
}

impl Edit {
    fn parts(&self) -> (&'static str, &[u8], u64) {
        match self {
            Edit::Put(bytes) => ("put", bytes, 0),
            Edit::Append { from, more } => ("append", more, *from),
            Edit::Remove => ("remove", &[], 0),
        }
    }

    fn of_parts(word: &str, bytes: &[u8], from: u64) -> Option<Edit> {
        let edit = match word {
            "put" => Edit::Put(bytes.to_vec()),
            "append" => Edit::Append {
                from,
                more: bytes.to_vec(),
            },
            "remove" => Edit::Remove,
            _ => return None,
        };
        (edit.parts() == (word, bytes, from)).then_some(edit)
    }
}

/// The journal of some changes.
pub fn encode(changes: &[Change]) -> Vec<u8> {
    let mut journal = format!("{TITLE}\n").into_bytes();
    for Change { name, before, edit } in changes {
        let (word, bytes, from) = edit.parts();
        let before = before.map_or(NOTHING.to_string(), |digest| digest.to_string());
        let line = format!("{word} {name} {} {before} {from}\n", bytes.len());
        journal.extend(line.bytes());
        journal.extend_from_slice(bytes);
    }
    journal.extend(format!("{END}\n").bytes());
    let digest = Digest::of(&journal);
    journal.extend(digest.0);
    journal
}

/// The changes of a journal that is whole.
pub fn decode(journal: &[u8]) -> Option<Vec<Change>> {
    let (mut rest, digest) = journal.split_last_chunk::<32>()?;
    if Digest::of(rest).0 != *digest || take_line(&mut rest)? != TITLE {
        return None;
    }
    let mut changes = Vec::new();
    loop {
        let line = take_line(&mut rest)?;
        if line == END {
            return rest.is_empty().then_some(changes);
        }
        let [word, name, length, before, from] =
            line.split(' ').collect::<Vec<_>>().try_into().ok()?;
        let (bytes, others) = rest.split_at_checked(length.parse().ok()?)?;
        rest = others;
        changes.push(Change {
            name: name.to_string(),
            before: match before {
                NOTHING => None,
                digest => Some(Digest::parse(digest)?),
            },
            edit: Edit::of_parts(word, bytes, from.parse().ok()?)?,
        });
    }
}

fn take_line<'bytes>(rest: &mut &'bytes [u8]) -> Option<&'bytes str> {
    let length = rest.iter().position(|&byte| byte == b'\n')?;
    let line = &rest[..length];
    *rest = &rest[length + 1..];
    str::from_utf8(line).ok()
}

#[cfg(test)]
mod tests {
    use super::*;

    fn changes() -> Vec<Change> {
        let change = |name: &str, before: Option<&[u8]>, edit: Edit| Change {
            name: name.to_string(),
            before: before.map(Digest::of),
            edit,
        };
        let more = b"line\n".to_vec();
        vec![
            change("a", None, Edit::Put(b"one\ntwo".to_vec())),
            change("b", Some(b"old"), Edit::Put(Vec::new())),
            change("c", Some(b""), Edit::Put(b"end\n".to_vec())),
            change("d", Some(b"tail"), Edit::Append { from: 7000, more }),
            change("e", Some(b"old"), Edit::Remove),
        ]
    }

    #[test]
    fn a_journal_is_read_as_it_was_written() {
        assert_eq!(decode(&encode(&changes())), Some(changes()));
        assert_eq!(decode(&encode(&[])), Some(Vec::new()));
    }

    #[test]
    fn a_part_of_a_journal_is_none() {
        let journal = encode(&changes());
        for at in 0..journal.len() {
            assert_eq!(decode(&journal[..at]), None, "{at} bytes");
            let mut other = journal.clone();
            other[at] ^= 1;
            assert_eq!(decode(&other), None, "byte {at}");
        }
    }
}
