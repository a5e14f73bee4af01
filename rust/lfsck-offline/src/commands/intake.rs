//! `intake`: a case made from attribute dumps.

use std::io::Read;
use std::path::Path;

use numbers::intake::MOST_PIECE;

use crate::answers::{CHECKING, fault_line, meaning};
use crate::args::IntakeOptions;
use crate::bar::{Bar, Work};
use crate::case::Case;
use crate::dump::Dumps;
use crate::dump_fault::Refused;
use crate::faults::{Fault, faults};
use crate::intake::{Intake, Stop};
use crate::json::Json;
use crate::line_fault::LineFault;
use crate::outcome::{Failure, Outcome, Status};
use crate::quoted;
use crate::reserve::Reserve;
use crate::source::Source;
use crate::tables::{Table, Tables};
use crate::whence::{Whence, members};

/// The most bytes of an owners file: many times as long as one for full tables.
const MOST_OWNERS: usize = 64 << 20;

/// What was taken in.
struct Taken {
    tables: Tables,
    dumps: Dumps,
    reserve: Reserve,
    /// The used rows of files and of objects.
    rows: [usize; 2],
}

/// Makes a case.
pub fn intake(
    directory: &Path,
    options: &IntakeOptions,
    json: bool,
    bar: &Bar,
) -> Result<Outcome, Failure> {
    require_spare("--spare-files", Table::Parents, options.spare_files)?;
    require_spare("--spare-objects", Table::Objects, options.spare_objects)?;
    Case::require_none(directory)?;
    let taken = take(options, bar)?;
    Case::make(directory, &taken.tables)?;
    bar.turn_to(CHECKING);
    let number = taken.tables.check();
    let list = faults(&taken.tables);
    let text = match json {
        true => taken.machine(directory, options, number, &list),
        false => taken.text(directory, options, number, &list),
    };
    let status = match number {
        0 => Status::Done,
        _ => Status::Refused,
    };
    Ok(Outcome {
        lasting: Some("the case was made"),
        ..Outcome::ended(text, status)
    })
}

/// Reads all that is named, and adds the spare rows.
fn take(options: &IntakeOptions, bar: &Bar) -> Result<Taken, Failure> {
    bar.turn_to(Work::Unmeasured("reading the owners"));
    let owners = options.owners.read_all(MOST_OWNERS)?;
    let reserve = options.reserve.as_ref().map(Reserve::read).transpose()?;
    let reserve = reserve.unwrap_or_default();
    let mut reader = Reader {
        intake: Intake::new(),
        dumps: Dumps::default(),
        owners: &owners,
        bar,
        read: 0,
    };
    bar.turn_to(work(&options.dumps));
    for source in &options.dumps {
        reader.read(source)?;
    }
    let Reader { intake, dumps, .. } = reader;
    let rows = [Table::Parents, Table::Objects].map(|table| intake.rows(table));
    let (mut parents, mut objects) = intake.into_tables();
    add_spare(Table::Parents, &mut parents, options.spare_files)?;
    add_spare(Table::Objects, &mut objects, options.spare_objects)?;
    Ok(Taken {
        tables: Tables {
            parents,
            objects,
            reserve: reserve.bytes.clone(),
        },
        dumps,
        reserve,
        rows,
    })
}

/// What the bar shows: how much of the dumps is read, where that can be told.
fn work(dumps: &[Source]) -> Work {
    let lengths: Option<Vec<u64>> = dumps.iter().map(Source::length).collect();
    match lengths {
        Some(lengths) => Work::Counted("bytes", lengths.iter().sum()),
        None => Work::Unmeasured("reading the dumps"),
    }
}

/// So many spare rows fit into an empty table.
fn require_spare(option: &str, table: Table, spare: usize) -> Result<(), Failure> {
    let (file, most) = (table.file(), table.most_rows());
    match spare <= most {
        true => Ok(()),
        false => Err(Failure::refused(format!(
            "{option} {spare}: {file} has at most {most} rows"
        ))),
    }
}

/// Adds unused rows to a table.
fn add_spare(table: Table, bytes: &mut Vec<u8>, spare: usize) -> Result<(), Failure> {
    let (size, most) = (table.row_bytes(), table.most_rows());
    let used = bytes.len() / size;
    let rows = used + spare;
    if rows > most {
        let file = table.file();
        let used = match used {
            1 => "1 row that is used".to_string(),
            _ => format!("{used} rows that are used"),
        };
        let spare = counted(spare, "spare one");
        return Err(Failure::refused(format!(
            "{file} would have {used} and {spare}; the most are {most}"
        )));
    }
    bytes.resize(rows * size, 0);
    Ok(())
}

/// Dumps that are read one after the other.
struct Reader<'call> {
    intake: Intake,
    dumps: Dumps,
    owners: &'call [u8],
    bar: &'call Bar,
    read: u64,
}

impl Reader<'_> {
    /// Reads a whole dump.
    fn read(&mut self, source: &Source) -> Result<(), Failure> {
        let mut input = source.open().map_err(|error| source.trouble(&error))?;
        let mut piece = vec![0; MOST_PIECE];
        loop {
            let length = read_some(&mut *input, &mut piece);
            let length = length.map_err(|error| source.trouble(&error))?;
            if length == 0 {
                break;
            }
            let piece = &piece[..length];
            let fed = self.intake.feed(piece, self.owners);
            fed.map_err(|stop| self.refusal(source, stop, piece))?;
            self.dumps.take(piece);
            self.read += length as u64;
            self.bar.show(self.read);
        }
        let end = self.intake.end();
        end.map_err(|stop| self.unended(source, stop))?;
        self.dumps.next();
        Ok(())
    }

    /// The failure for a fault in a piece.
    fn refusal(&mut self, source: &Source, stop: Stop, piece: &[u8]) -> Failure {
        let text = self.dumps.take_to(stop.line, piece);
        let entries = self.dumps.closed;
        let mut owners = self.owners.split_inclusive(|&byte| byte == b'\n');
        let owner = owners.nth(entries);
        let owner = owner.map(|line| line.strip_suffix(b"\n").unwrap_or(line));
        let refused = Refused {
            number: stop.number,
            text: &text,
            entry: self.dumps.entry.as_ref(),
            owner: (entries + 1, owner),
        };
        self.failure(source, stop, refused.reason(), &text)
    }

    /// The failure for a dump that ends too soon.
    fn unended(&self, source: &Source, stop: Stop) -> Failure {
        let (reason, text) = match &self.dumps.entry {
            Some(entry) => (
                "the dump ends before the empty line that closes this entry",
                &entry.origin.text[..],
            ),
            None => ("the dump ends within this line", self.dumps.rest()),
        };
        self.failure(source, stop, reason.to_string(), text)
    }

    fn failure(&self, source: &Source, stop: Stop, reason: String, text: &[u8]) -> Failure {
        let entry = self.dumps.entry.as_ref();
        Failure::of_line(LineFault {
            file: source.to_string(),
            line: self.dumps.line_here(stop.line),
            number: Some(stop.number),
            reason,
            text: text.to_vec(),
            entry: entry.map(|entry| entry.origin.clone()),
        })
    }
}

/// Reads until a piece is full or nothing is left, so that short reads make no short pieces.
fn read_some(input: &mut dyn Read, piece: &mut [u8]) -> std::io::Result<usize> {
    let mut length = 0;
    while length < piece.len() {
        match input.read(&mut piece[length..]) {
            Ok(0) => break,
            Ok(count) => length += count,
            Err(error) if error.kind() == std::io::ErrorKind::Interrupted => (),
            Err(error) => return Err(error),
        }
    }
    Ok(length)
}

impl Taken {
    fn text(
        &self,
        directory: &Path,
        options: &IntakeOptions,
        number: u32,
        list: &[Fault],
    ) -> String {
        let [files, objects] = self.rows;
        let mut text = format!(
            "A case is in {}: {} and {} from {}.\n",
            quoted::path(directory),
            counted(files, "file"),
            counted(objects, "object"),
            counted(options.dumps.len(), "dump")
        );
        text += &format!(
            "Spare rows: {} for files, {} for objects. FIDs in reserve: {}.\n",
            options.spare_files,
            options.spare_objects,
            self.reserve.lines.len()
        );
        match number {
            0 => text += "The tables are sound.\n",
            _ => {
                text += &format!("The tables are not sound: {number}, {}.\n", meaning(number));
                let lines = list.iter().map(|fault| self.line(options, fault));
                text.extend(lines);
            }
        }
        text
    }

    /// A fault, and where it comes from; of a FID that stands twice, both rows.
    fn line(&self, options: &IntakeOptions, fault: &Fault) -> String {
        let mut text = format!("  {}\n", fault_line(fault));
        if let Some(from) = self.whence(options, fault.table, fault.row) {
            text += &format!("      {from}\n");
        }
        let other = self.whence(options, fault.table, fault.other);
        if let (Some(row), Some(from)) = (fault.other, other) {
            text += &format!("      row {row} is {from}\n");
        }
        text
    }

    /// Where a row comes from.
    fn whence<'call>(
        &'call self,
        options: &'call IntakeOptions,
        table: Table,
        row: Option<usize>,
    ) -> Option<Whence<'call>> {
        let row = row?;
        if table == Table::Reserve {
            return Some(Whence {
                name: None,
                source: options.reserve.as_ref()?,
                line: *self.reserve.lines.get(row)? as u64,
            });
        }
        let origin = self.dumps.origin(table, row)?;
        Some(Whence {
            name: Some(origin.name()),
            source: &options.dumps[origin.dump],
            line: origin.line,
        })
    }

    fn machine(
        &self,
        directory: &Path,
        options: &IntakeOptions,
        number: u32,
        list: &[Fault],
    ) -> String {
        let count = |count: usize| Json::Number(count as u64);
        let [files, objects] = self.rows;
        let faults = list.iter().map(|fault| self.machine_fault(options, fault));
        Json::Object(vec![
            ("directory", Json::text(directory.display())),
            ("files", count(files)),
            ("objects", count(objects)),
            ("spare_files", count(options.spare_files)),
            ("spare_objects", count(options.spare_objects)),
            ("reserve_fids", count(self.reserve.lines.len())),
            ("answer", Json::Number(number.into())),
            ("sound", Json::Bool(number == 0)),
            ("faults", Json::List(faults.collect())),
        ])
        .line()
    }

    fn machine_fault(&self, options: &IntakeOptions, fault: &Fault) -> Json {
        let number = |row: Option<usize>| Json::maybe_number(row.map(|row| row as u64));
        let whence = |row| self.whence(options, fault.table, row);
        let (own, other) = (whence(fault.row), whence(fault.other));
        let mut list = vec![
            ("number", Json::Number(fault.number.into())),
            ("table", Json::text(fault.table.file())),
            ("row", number(fault.row)),
            ("field", Json::text(&fault.field)),
            ("reason", Json::text(&fault.reason)),
        ];
        list.extend(members(["file", "line", "name", "name_hex"], own.as_ref()));
        list.push(("other_row", number(fault.other)));
        let names = ["other_file", "other_line", "other_name", "other_name_hex"];
        list.extend(members(names, other.as_ref()));
        Json::Object(list)
    }
}

/// So many of a thing.
fn counted(count: usize, thing: &str) -> String {
    match count {
        1 => format!("1 {thing}"),
        _ => format!("{count} {thing}s"),
    }
}

#[cfg(test)]
mod tests {
    use super::*;

    #[test]
    fn the_bar_counts_bytes_where_all_dumps_are_files() {
        let this = Source::File(concat!(env!("CARGO_MANIFEST_DIR"), "/Cargo.toml").into());
        let bytes = this.length().expect("a plain file");
        let both = [this.clone(), this.clone()];
        assert_eq!(work(&both), Work::Counted("bytes", 2 * bytes));
        let unknown = Work::Unmeasured("reading the dumps");
        assert_eq!(work(&[this, Source::Standard]), unknown);
        assert_eq!(work(&[Source::File("/dev/null".into())]), unknown);
    }

    #[test]
    fn spare_rows_that_do_not_fit_are_counted_in_words() {
        let refusal = |used: usize, spare: usize| {
            let mut bytes = vec![1; used * Table::Objects.row_bytes()];
            let added = add_spare(Table::Objects, &mut bytes, spare);
            added.expect_err("too many rows").message
        };
        assert_eq!(
            refusal(1, 65_536),
            "objects.tbl would have 1 row that is used and 65536 spare ones; the most are 65536"
        );
        assert_eq!(
            refusal(65_536, 1),
            "objects.tbl would have 65536 rows that are used and 1 spare one; the most are 65536"
        );
    }

    #[test]
    fn a_piece_is_filled_by_short_reads() {
        let mut input = (&b"abc"[..]).chain(&b"de"[..]).chain(&b"fgh"[..]);
        let mut piece = [0; 6];
        assert_eq!(read_some(&mut input, &mut piece).unwrap(), 6);
        assert_eq!(&piece, b"abcdef");
        assert_eq!(read_some(&mut input, &mut piece).unwrap(), 2);
        assert_eq!(read_some(&mut input, &mut piece).unwrap(), 0);
    }
}
