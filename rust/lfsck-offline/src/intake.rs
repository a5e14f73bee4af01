//! Dumps read by the library, piece by piece, into tables that grow.

use numbers::intake::STATE;

use crate::tables::Table;

/// The library's number for a line, and the line, counted from 1 over all dumps.
#[derive(Clone, Copy, Debug, PartialEq, Eq)]
pub struct Stop {
    /// The number.
    pub number: u32,
    /// The line.
    pub line: u64,
}

/// A reading.
pub struct Intake {
    state: Vec<u8>,
    files: Filled,
    objects: Filled,
}

/// A table whose first rows are filled, with unused rows behind them.
struct Filled {
    table: Table,
    bytes: Vec<u8>,
    rows: usize,
}

impl Intake {
    /// Nothing was read yet.
    pub fn new() -> Intake {
        Intake {
            state: vec![0; STATE],
            files: Filled::none(Table::Parents),
            objects: Filled::none(Table::Objects),
        }
    }

    /// Reads a piece. The library fills the first unused row, and looks at every mark that it is
    /// lent; so it is lent the unused rows alone, as many as a piece can fill.
    pub fn feed(&mut self, piece: &[u8], owners: &[u8]) -> Result<(), Stop> {
        let mut line = [0];
        let most = closed(piece);
        let number = lfsck_sys::intake_feed(
            &mut self.state,
            piece,
            owners,
            self.files.unused(most),
            self.objects.unused(most),
            &mut line,
        );
        self.files.count();
        self.objects.count();
        stop(number, line[0])
    }

    /// Whether the dump may end here.
    pub fn end(&self) -> Result<(), Stop> {
        let mut line = [0];
        let number = lfsck_sys::intake_end(&self.state, &mut line);
        stop(number, line[0])
    }

    /// How many rows of a table are filled.
    pub fn rows(&self, table: Table) -> usize {
        match table {
            Table::Parents => self.files.rows,
            Table::Objects => self.objects.rows,
            _ => 0,
        }
    }

    /// Both tables, of the filled rows alone.
    pub fn into_tables(self) -> (Vec<u8>, Vec<u8>) {
        (self.files.into_bytes(), self.objects.into_bytes())
    }
}

/// The most entries that a piece closes: its empty lines, and its first where it begins with the end
/// of a line, which may be empty.
fn closed(piece: &[u8]) -> usize {
    let before = [b'\n'].iter().chain(piece);
    let pairs = before.zip(piece);
    pairs.filter(|pair| *pair == (&b'\n', &b'\n')).count()
}

fn stop(number: u32, line: u64) -> Result<(), Stop> {
    match number {
        0 => Ok(()),
        _ => Err(Stop { number, line }),
    }
}

impl Filled {
    fn none(table: Table) -> Filled {
        Filled {
            table,
            bytes: Vec::new(),
            rows: 0,
        }
    }

    /// The unused rows that are lent, so many where the table may have them.
    fn unused(&mut self, most: usize) -> &mut [u8] {
        let size = self.table.row_bytes();
        let rows = (self.rows + most).min(self.table.most_rows());
        self.bytes.resize(rows * size, 0);
        &mut self.bytes[self.rows * size..]
    }

    fn count(&mut self) {
        let size = self.table.row_bytes();
        let lent = self.bytes[self.rows * size..].chunks(size);
        self.rows += lent.take_while(|row| row[0] == 1).count();
    }

    fn into_bytes(mut self) -> Vec<u8> {
        self.bytes.truncate(self.rows * self.table.row_bytes());
        self.bytes
    }
}

#[cfg(test)]
mod tests {
    use super::*;

    #[test]
    fn empty_lines_close_entries() {
        for (piece, most) in [
            (&b""[..], 0),
            (b"a", 0),
            (b"a\n", 0),
            (b"a\n\n", 1),
            (b"\n", 1),
            (b"\n\n\n", 3),
            (b"a\n\nb\n\nc", 2),
            (b"\na\n\n", 2),
        ] {
            assert_eq!(closed(piece), most, "{piece:?}");
        }
    }
}
