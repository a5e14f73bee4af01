//! What the rows of sound tables of names say.

use numbers::names::{ROOT_ID, ROOT_SEQUENCE};
use numbers::{child, entry, fid, link};

use crate::fid::{Fid, MdtFid, number16, number32};
use crate::hex;
use crate::json::Json;
use crate::quoted::quoted;

/// ROOT, which is visible by itself.
pub const ROOT: MdtFid = MdtFid(Fid::new(ROOT_SEQUENCE, ROOT_ID));

/// A name in a directory: what a record of a linkEA says.
#[derive(Clone, Debug, PartialEq, Eq)]
pub struct Name {
    /// The directory.
    pub directory: MdtFid,
    /// The name, of any bytes.
    pub name: Vec<u8>,
}

/// An entry row.
#[derive(Clone, Debug, PartialEq, Eq)]
pub struct Entry {
    /// The directory and the name.
    pub at: Name,
    /// The row of the child.
    pub child: usize,
    /// The FID-in-dirent, if there is one.
    pub fid: Option<MdtFid>,
}

/// A child row.
#[derive(Clone, Debug, PartialEq, Eq)]
pub struct Child<'row> {
    /// The self FID, if there is one.
    pub own: Option<MdtFid>,
    /// The directory that `..` names, if it names one.
    pub up: Option<MdtFid>,
    /// The linkEA, if there is one.
    pub link: Option<&'row [u8]>,
}

/// The FID at a place of a row; zeros are none.
fn fid_at(row: &[u8], at: usize) -> Option<MdtFid> {
    let fid = Fid::read(row, at);
    (fid != Fid::new(0, 0)).then_some(MdtFid(fid))
}

impl Entry {
    /// The entry in a row; none where the name is longer than its room.
    pub fn read(row: &[u8]) -> Option<Entry> {
        let length = usize::from(number16(row, entry::LENGTH_AT));
        let name = row[entry::NAME_AT..].get(..length)?.to_vec();
        let directory = MdtFid(Fid::read(row, entry::PARENT_AT));
        Some(Entry {
            at: Name { directory, name },
            child: number32(row, entry::CHILD_AT) as usize,
            fid: fid_at(row, entry::FID_AT),
        })
    }
}

impl Child<'_> {
    /// The child in a row; none where the linkEA is longer than its room.
    pub fn read(row: &[u8]) -> Option<Child<'_>> {
        let length = usize::from(number16(row, child::LENGTH_AT));
        let link = row[child::LINK_AT..].get(..length)?;
        Some(Child {
            own: fid_at(row, child::SELF_AT),
            up: fid_at(row, child::UP_AT),
            link: (length > 0).then_some(link),
        })
    }

    /// The records of the linkEA, in their order.
    pub fn records(&self) -> Vec<Name> {
        let mut records = Vec::new();
        let mut rest = self.link.and_then(|link| link.get(link::HEADER..));
        while let Some((name, behind)) = rest.and_then(first_record) {
            records.push(name);
            rest = Some(behind);
        }
        records
    }
}

/// The record that some bytes begin with, and what stands behind it.
fn first_record(bytes: &[u8]) -> Option<(Name, &[u8])> {
    let length = usize::from(u16::from_be_bytes(*bytes.first_chunk()?));
    let (record, behind) = bytes.split_at_checked(length)?;
    let name = record.get(link::NAME_AT..)?.to_vec();
    let directory = big_endian_fid(&record[link::PARENT_AT..]);
    Some((Name { directory, name }, behind))
}

fn big_endian_fid(bytes: &[u8]) -> MdtFid {
    let at = |start: usize, end: usize| {
        let digits = bytes[start..end].iter();
        digits.fold(0, |number, byte| number << 8 | u64::from(*byte))
    };
    MdtFid(Fid {
        sequence: at(fid::SEQUENCE_AT, fid::ID_AT),
        id: at(fid::ID_AT, fid::VERSION_AT) as u32,
        version: at(fid::VERSION_AT, fid::BYTES) as u32,
    })
}

impl Name {
    /// For people.
    pub fn words(&self) -> String {
        format!("{} in {}", quoted(&self.name), self.directory)
    }

    /// For machines.
    pub fn members(&self) -> [(&'static str, Json); 3] {
        [
            ("directory", Json::text(self.directory)),
            ("name", Json::maybe(str::from_utf8(&self.name).ok())),
            ("name_hex", Json::text(hex::encode(&self.name))),
        ]
    }
}

/// A FID in words.
pub fn fid_words(fid: Option<MdtFid>) -> String {
    fid.map_or("none".to_string(), |fid| fid.to_string())
}

#[cfg(test)]
mod tests {
    use super::*;
    use crate::bar::Bar;
    use crate::link::Link;
    use crate::names::Names;
    use crate::tables::{Table, Together};
    use difftest::Random;
    use difftest::names::{random_names, to_bytes};

    /// The records of a row are those that the library reads; how many.
    fn expect_records(row: &[u8]) -> usize {
        let child = Child::read(row).expect("a sound row");
        let Some(bytes) = child.link else { return 0 };
        let link = Link::read(bytes, &Bar::none()).expect("a linkEA");
        let read = link.records.iter().map(|record| Name {
            directory: record.parent,
            name: record.name.to_vec(),
        });
        assert_eq!(child.records(), read.collect::<Vec<Name>>());
        link.records.len()
    }

    #[test]
    fn records_are_those_of_the_library() {
        let mut random = Random::for_test("records");
        let mut met = 0;
        for _ in 0..2_000 {
            let (entries, children) = to_bytes(&random_names(&mut random), &mut random);
            let names = Names { entries, children };
            met += names
                .rows(Table::Children)
                .map(expect_records)
                .sum::<usize>();
        }
        assert!(met > 2_000, "{met} records");
    }
}
