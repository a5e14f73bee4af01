//! The tables of a case, as bytes.

use numbers::call::END;
use numbers::{child, entry, object, parent, reserve};

/// Which table.
#[derive(Clone, Copy, Debug, PartialEq, Eq)]
pub enum Table {
    /// The files with their layouts.
    Parents,
    /// The objects.
    Objects,
    /// The FIDs for new objects.
    Reserve,
    /// The entries of directories.
    Entries,
    /// What the entries name.
    Children,
}

/// Tables that are changed and saved at once.
pub trait Together: Clone + PartialEq {
    /// Which ones.
    const ALL: &'static [Table];

    /// What changes them: a word for people.
    const CHANGED_BY: &'static str;

    /// The bytes of one of them, and of any other table none.
    fn of(&self, table: Table) -> &[u8];

    /// The bytes of one of them, to be changed.
    fn of_mut(&mut self, table: Table) -> Option<&mut Vec<u8>>;

    /// The lengths of the two that may be changed.
    fn lengths(&self) -> [usize; 2];

    /// The whole rows of one of them.
    fn rows(&self, table: Table) -> impl Iterator<Item = &[u8]> {
        self.of(table).chunks_exact(table.row_bytes())
    }
}

impl Table {
    /// The three of files and objects, which every case has.
    pub const ALL: [Table; 3] = [Table::Parents, Table::Objects, Table::Reserve];

    /// The two of names, which a case may have.
    pub const NAMES: [Table; 2] = [Table::Entries, Table::Children];

    /// All five.
    pub fn every() -> impl Iterator<Item = Table> {
        Table::ALL.into_iter().chain(Table::NAMES)
    }

    /// The file of the table.
    pub fn file(self) -> &'static str {
        match self {
            Table::Parents => "parents.tbl",
            Table::Objects => "objects.tbl",
            Table::Reserve => "reserve.tbl",
            Table::Entries => "entries.tbl",
            Table::Children => "children.tbl",
        }
    }

    /// The bytes of a row.
    pub fn row_bytes(self) -> usize {
        match self {
            Table::Parents => parent::BYTES,
            Table::Objects => object::BYTES,
            Table::Reserve => reserve::BYTES,
            Table::Entries => entry::BYTES,
            Table::Children => child::BYTES,
        }
    }

    /// The most rows.
    pub fn most_rows(self) -> usize {
        match self {
            Table::Parents => parent::MOST,
            Table::Objects => object::MOST,
            Table::Reserve => reserve::MOST,
            Table::Entries => entry::MOST,
            Table::Children => child::MOST,
        }
    }

    /// The most bytes.
    pub fn most_bytes(self) -> usize {
        self.row_bytes() * self.most_rows()
    }
}

/// The contents of the three tables. Of a file that is too long there is one byte too many.
#[derive(Clone, Debug, Default, PartialEq, Eq)]
pub struct Tables {
    /// The parent rows.
    pub parents: Vec<u8>,
    /// The object rows.
    pub objects: Vec<u8>,
    /// The reserve.
    pub reserve: Vec<u8>,
}

impl Together for Tables {
    const ALL: &'static [Table] = &Table::ALL;
    const CHANGED_BY: &'static str = "run";

    fn of(&self, table: Table) -> &[u8] {
        match table {
            Table::Parents => &self.parents,
            Table::Objects => &self.objects,
            Table::Reserve => &self.reserve,
            Table::Entries | Table::Children => &[],
        }
    }

    fn of_mut(&mut self, table: Table) -> Option<&mut Vec<u8>> {
        match table {
            Table::Parents => Some(&mut self.parents),
            Table::Objects => Some(&mut self.objects),
            Table::Reserve => Some(&mut self.reserve),
            Table::Entries | Table::Children => None,
        }
    }

    fn lengths(&self) -> [usize; 2] {
        [self.parents.len(), self.objects.len()]
    }
}

impl Tables {
    /// The library's number for the tables: 0, 11, 13, 14 or 15. The end is always a position.
    pub fn check(&self) -> u32 {
        lfsck_sys::check(&self.parents, &self.objects, &self.reserve, 0, END)
    }

    /// The reserve passes the check, whatever stands in the other tables.
    pub fn is_reserve_sound(&self) -> bool {
        lfsck_sys::check(&[], &[], &self.reserve, 0, END) == 0
    }
}

#[cfg(test)]
impl Tables {
    /// Random tables that pass the check, with no reserve.
    pub fn random(shape: difftest::tables::Shape, random: &mut difftest::Random) -> Tables {
        let tables = difftest::tables::random_tables(shape, random);
        Tables::of_rows(&tables, random)
    }

    /// The same, as redirects may leave them that were cut off.
    pub fn random_cut(shape: difftest::tables::Shape, random: &mut difftest::Random) -> Tables {
        let tables = difftest::tables::random_cut_tables(shape, random);
        Tables::of_rows(&tables, random)
    }

    /// Either of the two.
    pub fn random_or_cut(shape: difftest::tables::Shape, random: &mut difftest::Random) -> Tables {
        match random.one_in(2) {
            true => Tables::random(shape, random),
            false => Tables::random_cut(shape, random),
        }
    }

    fn of_rows(tables: &reference::tables::Tables, random: &mut difftest::Random) -> Tables {
        let (parents, objects) = difftest::tables::to_bytes(tables, random);
        Tables {
            parents,
            objects,
            reserve: Vec::new(),
        }
    }
}
