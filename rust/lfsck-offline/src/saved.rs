//! The saved position of a run, and what it was saved with.
//!
//! It counts only for the edition, the policy, the reserve and the tables that it was saved with:
//! under any other a run that went on from it could pass by what has changed since.

use numbers::call::{ADOPT, CREATE};

use crate::digest::Digest;
use crate::narrow;
use crate::tables::Tables;

/// The file of the saved position.
pub const POSITION: &str = "lfsck-offline.position";
/// The file is shorter than this.
pub const MOST_BYTES: usize = 4096;
/// What the first line begins with; the number of the format follows.
const TITLE: &str = "lfsck-offline position, format ";

/// The edition of the rules that this version keeps to. Which tables are accepted and what a run
/// does to them may differ from edition to edition, so none is taken up in another.
pub const EDITION: &str = "2026-09";

/// The forms of the file, which are alike but for the title and the edition.
#[derive(Clone, Debug, PartialEq, Eq)]
pub enum Format {
    /// Of a version without the class WRONG-OST.
    One,
    /// Of a version that raised no generations.
    Two,
    /// Of a version whose files had at most 160 slots.
    Three,
    /// With the name of an edition.
    Four(String),
}

impl Format {
    /// The format that the first lines tell.
    fn read<'text>(lines: &mut impl Iterator<Item = &'text str>) -> Option<Format> {
        match lines.next()?.strip_prefix(TITLE)? {
            "1" => Some(Format::One),
            "2" => Some(Format::Two),
            "3" => Some(Format::Three),
            "4" => {
                let name = lines.next()?.strip_prefix("edition ")?;
                is_plain(name).then(|| Format::Four(name.to_string()))
            }
            _ => None,
        }
    }

    /// The first lines of the file.
    fn lines(&self) -> String {
        match self {
            Format::One => format!("{TITLE}1\n"),
            Format::Two => format!("{TITLE}2\n"),
            Format::Three => format!("{TITLE}3\n"),
            Format::Four(edition) => format!("{TITLE}4\nedition {edition}\n"),
        }
    }

    /// Which edition saved it, in words; none where it is this one.
    fn other_edition(&self) -> Option<String> {
        match self {
            Format::Four(edition) if edition == EDITION => None,
            Format::Four(edition) => Some(format!("edition {edition}")),
            _ => Some(format!(
                "an edition before {}, with at most {} slots",
                narrow::BEFORE,
                narrow::SLOTS
            )),
        }
    }
}

/// Whether a name of an edition is some printable characters of ASCII.
fn is_plain(name: &str) -> bool {
    let plain = |byte: u8| byte == b' ' || byte.is_ascii_graphic();
    !name.is_empty() && name.bytes().all(plain)
}

/// A position and its conditions.
#[derive(Clone, Debug, PartialEq, Eq)]
pub struct Saved {
    /// The form of the file.
    pub format: Format,
    /// Stage, row and part.
    pub position: [u64; 3],
    /// The policy of the run.
    pub policy: u64,
    /// Of the parent table as the run left it.
    pub parents: Digest,
    /// Of the object table as the run left it.
    pub objects: Digest,
    /// Of the reserve.
    pub reserve: Digest,
}

impl Saved {
    /// A position in these tables.
    pub fn new(position: [u64; 3], policy: u64, tables: &Tables) -> Saved {
        Saved {
            format: Format::Four(EDITION.to_string()),
            position,
            policy,
            parents: Digest::of(&tables.parents),
            objects: Digest::of(&tables.objects),
            reserve: Digest::of(&tables.reserve),
        }
    }

    /// Which edition saved it, in words; none where it is this one.
    pub fn other_edition(&self) -> Option<String> {
        self.format.other_edition()
    }

    /// Why a run with this policy on these tables must not go on from here, where the edition is
    /// this one.
    pub fn differs(&self, policy: u64, tables: &Tables) -> Option<String> {
        if self.policy != policy {
            let (was, is) = (policy_words(self.policy), policy_words(policy));
            return Some(format!("it was saved with {was}, and this run has {is}"));
        }
        let tables = [
            (self.parents, &tables.parents, "parents.tbl"),
            (self.objects, &tables.objects, "objects.tbl"),
            (self.reserve, &tables.reserve, "reserve.tbl"),
        ];
        let mut changed = tables
            .iter()
            .filter(|(digest, bytes, _)| *digest != Digest::of(bytes));
        let (_, _, file) = changed.next()?;
        Some(format!("{file} has changed since it was saved"))
    }

    /// The text of the file.
    pub fn to_text(&self) -> String {
        let [stage, row, part] = self.position;
        let text = format!(
            "{}position {stage} {row} {part}\npolicy {}\nparents {}\nobjects {}\nreserve {}\n",
            self.format.lines(),
            self.policy,
            self.parents,
            self.objects,
            self.reserve
        );
        let digest = Digest::of(text.as_bytes());
        format!("{text}digest {digest}\n")
    }

    /// The saved position that a file holds, byte for byte as it was written.
    pub fn parse(bytes: &[u8]) -> Option<Saved> {
        let text = str::from_utf8(bytes).ok()?;
        let mut lines = text.lines();
        let format = Format::read(&mut lines)?;
        let mut field = |name: &str| lines.next()?.strip_prefix(name)?.strip_prefix(' ');
        let position: Option<Vec<u64>> = field("position")?
            .split(' ')
            .map(|number| number.parse().ok())
            .collect();
        let saved = Saved {
            format,
            position: position?.try_into().ok()?,
            policy: field("policy")?.parse().ok()?,
            parents: Digest::parse(field("parents")?)?,
            objects: Digest::parse(field("objects")?)?,
            reserve: Digest::parse(field("reserve")?)?,
        };
        (saved.to_text() == text).then_some(saved)
    }
}

/// What the file of the saved position holds.
#[derive(Debug, PartialEq, Eq)]
pub enum Held {
    /// There is no such file.
    Nothing,
    /// A position of this edition.
    Own(Saved),
    /// A position of another edition, which these words name.
    Other(String),
    /// Something else.
    Broken,
}

impl Held {
    /// What these bytes are.
    pub fn of(bytes: &[u8]) -> Held {
        match Saved::parse(bytes) {
            None => Held::Broken,
            Some(saved) => match saved.other_edition() {
                None => Held::Own(saved),
                Some(edition) => Held::Other(edition),
            },
        }
    }
}

/// A policy in words.
pub fn policy_words(policy: u64) -> &'static str {
    match policy {
        0 => "neither create nor adopt",
        CREATE => "create",
        ADOPT => "adopt",
        _ => "create and adopt",
    }
}

#[cfg(test)]
mod tests {
    use super::*;

    fn tables() -> Tables {
        Tables {
            parents: vec![1],
            objects: vec![2],
            reserve: vec![3],
        }
    }

    #[test]
    fn a_position_is_read_as_it_was_saved() {
        let saved = Saved::new([1, 2, 3], 3, &tables());
        let text = saved.to_text();
        assert!(text.len() < MOST_BYTES);
        assert_eq!(Saved::parse(text.as_bytes()), Some(saved));
    }

    /// It is read, and written again byte for byte.
    #[test]
    fn a_position_of_another_edition_is_read() {
        let before = "an edition before 2026-07, with at most 160 slots";
        let four = |name: &str| Format::Four(name.to_string());
        for (format, start, edition) in [
            (Format::One, "1\n", before),
            (Format::Two, "2\n", before),
            (Format::Three, "3\n", before),
            (four("2026-06"), "4\nedition 2026-06\n", "edition 2026-06"),
            (four("2026-07"), "4\nedition 2026-07\n", "edition 2026-07"),
            (four("2026-08"), "4\nedition 2026-08\n", "edition 2026-08"),
            (four("~ a b !"), "4\nedition ~ a b !\n", "edition ~ a b !"),
        ] {
            let saved = Saved {
                format,
                ..Saved::new([3, 0, 0], 3, &tables())
            };
            let text = saved.to_text();
            let start = format!("lfsck-offline position, format {start}position 3 0 0\npolicy 3\n");
            assert!(text.starts_with(&start), "{text}");
            assert_eq!(Saved::parse(text.as_bytes()), Some(saved.clone()));
            assert_eq!(saved.other_edition().as_deref(), Some(edition));
        }
        let own = Saved::new([3, 0, 0], 3, &tables());
        assert!(
            own.to_text()
                .contains("format 4\nedition 2026-09\nposition ")
        );
        assert_eq!(own.other_edition(), None);
    }

    /// A title or an edition alone makes no position of another, and each name is plain.
    #[test]
    fn a_title_alone_makes_no_position() {
        let text = Saved::new([3, 0, 0], 3, &tables()).to_text();
        let first = text.replace("format 4\nedition 2026-09\n", "format 1\n");
        for other in [
            first.replace("format 1", "format 3"),
            text.replace("format 4", "format 3"),
            text.replace("format 4", "format 5"),
            text.replace("edition 2026-09", "edition 2026-08"),
        ] {
            assert_eq!(Saved::parse(other.as_bytes()), None, "{other}");
        }
        for name in ["", "\u{e9}dition", "two\tparts", "bell\u{7}"] {
            let saved = Saved {
                format: Format::Four(name.to_string()),
                ..Saved::new([3, 0, 0], 3, &tables())
            };
            assert_eq!(Saved::parse(saved.to_text().as_bytes()), None, "{name}");
        }
    }

    #[test]
    fn any_other_byte_makes_it_unreadable() {
        let text = Saved::new([1, 2, 3], 3, &tables()).to_text().into_bytes();
        for at in 0..text.len() {
            let mut other = text.clone();
            other[at] ^= 1;
            assert_eq!(Saved::parse(&other), None, "byte {at}");
            assert_eq!(Saved::parse(&text[..at]), None, "{at} bytes");
        }
        let more = [&text[..], b"\n"].concat();
        assert_eq!(Saved::parse(&more), None);
    }

    #[test]
    fn it_counts_for_its_own_conditions_alone() {
        let saved = Saved::new([1, 2, 3], 1, &tables());
        assert_eq!(saved.differs(1, &tables()), None);
        assert!(saved.differs(3, &tables()).unwrap().contains("create"));
        let mut parents = tables();
        parents.parents[0] = 0;
        let mut objects = tables();
        objects.objects.push(0);
        let mut reserve = tables();
        reserve.reserve.clear();
        for (other, file) in [
            (parents, "parents.tbl"),
            (objects, "objects.tbl"),
            (reserve, "reserve.tbl"),
        ] {
            assert!(saved.differs(1, &other).unwrap().contains(file));
        }
    }
}
