//! How the commands are used.

use std::ffi::OsStr;

/// What help is asked for.
#[derive(Clone, Copy, Debug, PartialEq, Eq)]
pub enum Topic {
    /// The tool as a whole.
    All,
    /// `sample`.
    Sample,
    /// `check`.
    Check,
    /// `classes`.
    Classes,
    /// `run`.
    Run,
    /// `show`.
    Show,
    /// `log`.
    Log,
    /// `undo`.
    Undo,
    /// `convert`.
    Convert,
    /// `names`.
    Names,
    /// `link`.
    Link,
    /// `intake`.
    Intake,
}

impl Topic {
    /// The topic of the first word of a command line.
    pub fn of_word(word: &OsStr) -> Option<Topic> {
        Some(match word.to_str()? {
            "help" | "--help" | "-h" => Topic::All,
            "sample" => Topic::Sample,
            "check" => Topic::Check,
            "classes" => Topic::Classes,
            "run" => Topic::Run,
            "show" => Topic::Show,
            "log" => Topic::Log,
            "undo" => Topic::Undo,
            "convert" => Topic::Convert,
            "names" => Topic::Names,
            "link" => Topic::Link,
            "intake" => Topic::Intake,
            _ => return None,
        })
    }

    /// The help.
    pub fn text(self) -> &'static str {
        match self {
            Topic::All => ALL,
            Topic::Sample => SAMPLE,
            Topic::Check => CHECK,
            Topic::Classes => CLASSES,
            Topic::Run => RUN,
            Topic::Show => SHOW,
            Topic::Log => LOG,
            Topic::Undo => UNDO,
            Topic::Convert => CONVERT,
            Topic::Names => NAMES,
            Topic::Link => LINK,
            Topic::Intake => INTAKE,
        }
    }

    /// Whether `-` stands for standard input.
    pub fn takes_standard(self) -> bool {
        matches!(self, Topic::Link | Topic::Intake)
    }

    /// The most words that are no options, the case among them.
    pub fn most_places(self) -> usize {
        match self {
            Topic::Show | Topic::Log => 2,
            Topic::Intake => usize::MAX,
            _ => 1,
        }
    }
}

const ALL: &str = "\
Usage: lfsck-offline COMMAND DIR [OPTIONS]
       lfsck-offline link FILE [OPTIONS]

Checks and repairs the striping layouts of a site from table files. DIR is the
case: the directory with parents.tbl, objects.tbl and reserve.tbl. A case may
also have names: entries.tbl and children.tbl.

  sample DIR     make a small case with every kind of fault
  intake DIR --owners FILE [DUMP..]
                 make a case from what getfattr printed
  check DIR      say whether the tables are sound, and list every row at fault
  classes DIR    list what is wrong with which file, and what a repair would do
  run DIR        repair, going on from where the last run stopped
  show DIR FID   tell everything about one file or object
  names DIR      list where names and files disagree, and mend that (--mend)
  log DIR [FID]  tell what the runs changed, and when; of FID, also why
  undo DIR       take the last run or mending back
  convert DIR    make a case of an earlier edition one of this edition
  link FILE      print a linkEA: under which names a file stands in directories

  help COMMAND   tell how a command is used
  --version      tell which version this is

Options of every command:
  --json         print JSON for machines, failures too
  --help         help for the command

Exit status: 0 done, 1 steps left, 2 input refused, 3 something ran out,
4 something to mend (classes --exit-code), 64 wrong usage, 74 trouble with
files.
";

const SAMPLE: &str = "\
Usage: lfsck-offline sample DIR [--json]

Makes a small case with every class in it: parents.tbl, objects.tbl and
reserve.tbl in DIR, which is made where it is missing; names with every finding:
entries.tbl and children.tbl; and link.hex, a linkEA to print with link. Files
that are already there are not overwritten.
";

const CHECK: &str = "\
Usage: lfsck-offline check DIR [--json]

Says whether the tables are sound. Where they are not, prints the lowest number
that applies and what it means, and every row at fault with field and reason.

  11  table not whole rows, too long, or a mark not 0 or 1; where the rows are
      those of an edition before 2026-07 it says so, and convert widens them
  13  layout against the rules; a stripe size of 0, or one that is no multiple
      of 65,536, is too, also where the layout has no slots
  14  bad FID, object index or claim, or fresh without claim
  15  a FID twice among used parents, or twice among used objects

Where the case has names, says the same of entries.tbl and children.tbl:

  11  table not whole rows, or too long
  16  an entry's child at or past the child rows
  31  name or linkEA against the rules
  39  a climb from directory to directory is too long or circular

Exit status: 0 sound, 2 not sound.
";

const CLASSES: &str = "\
Usage: lfsck-offline classes DIR [--only CLASS] [--file FID] [--object FID]
                         [--ost N] [--owner UID[:GID]] [--summary]
                         [--exit-code] [--json]

Lists every finding: file, slot, object, class, and what its repair would do and
under which policy. Where a slot is to get the OST index of its object, it says
which OST the slot names and where the object is. Where a run does something to
the claimed slot of an object before it comes to the object, so that its class
is another by then, it says so. Ends with the number of positions of each class,
and how many slots are compared to find the keepers of the objects that slots
name.

  --only CLASS   list the positions of this class alone, of any class:
                 CLEAN SELF HOLE MULTIPLE DANGLING BLANK UNMATCHED WRONG-OST
                 OWNER SPARE EMPTY ORPHAN CONFLICT KEPT UNUSED
  --file FID     header and slots of this file, and the objects that claim it
  --object FID   this object, and the slots that name it
  --ost N        objects on this OST, and slots that say so of theirs
  --owner UID[:GID]
                 files of this owner with their slots, and objects of this owner
  --summary      print these numbers alone
  --exit-code    exit with 4 where a run with --create --adopt would repair
                 something of what is listed

--only, --file, --object, --ost and --owner may be given several times: any of a
kind may match, and one of each kind must. The numbers at the end are those of
the files, objects, OSTs and owners that are asked for.
";

const RUN: &str = "\
Usage: lfsck-offline run DIR [--create] [--adopt] [--steps N] [--from-start]
                         [--dry-run] [--summary] [--json]

Repairs step by step and saves tables and position together. Goes on from the
saved position if policy, reserve and tables are those that it was saved with,
else begins at the start and says why. A position that another edition saved is
refused: no run is taken up across editions, and this is edition 2026-09. SELF,
BLANK, UNMATCHED, WRONG-OST and OWNER are repaired under every policy. A step
that changes a slot of a file that was there, or the number of its slots, raises
the generation of its layout by one.

  --create       give slots that have no object of their own one: an empty
                 object that claims the slot and that no slot names, or else a
                 new one (MULTIPLE); the missing object (DANGLING)
  --adopt        put objects that no slot names in the places they claim, and
                 destroy empty ones (ORPHAN, EMPTY)
  --steps N      make at most N steps
  --from-start   leave the saved position aside
  --dry-run, -n  make the run on a copy: print what it would, write nothing
  --summary      leave out the list of changes

What it changes stands in the log (see log), and undo takes it back. SIGINT or
SIGTERM ends it after the slice that it is in, and saves; a second one at once.

Exit status: 0 the end is reached, 1 steps are left, 2 input refused, 3 the
reserve or the unused rows of a table ran out. A slot for which there is an
empty object that claims it needs neither.
";

const SHOW: &str = "\
Usage: lfsck-offline show DIR FID [--writes] [--json]

Tells everything about one file or object: layout, slots, claims, class, and why
(which rule makes a slot the keeper); and how many slots were compared to find
the keeper. Where a repair raises the generation of the layout, it says from
what to what. FID is written [0x200000401:0x1:0x0], with or without brackets, in
hexadecimal or decimal numbers.

  --writes       tell of each repair which rows its step writes, in the order
                 in which they are to be stored, as if it were made alone; or
                 with which number a run would stop in front of it. Each repair
                 takes a call of the library, which checks all tables: with
                 many repairs in large tables that takes long

Exit status: 2 where nothing in the case has the FID.
";

const NAMES: &str = "\
Usage: lfsck-offline names DIR [--summary] [--json]
       lfsck-offline names DIR --mend [--dry-run] [--summary] [--json]

Compares the entries of directories (entries.tbl) with the files and directories
that they name (children.tbl). Lists every entry that is not consistent:
directory, whether that is visible, row and self FID of the child, what is found
of the FID and of the record, and the name, in quotes as link prints it. Ends
with the number of entries of each finding.

  FID   consistent, no FID-in-dirent, differs (FID-in-dirent and self FID are
        not the same), no self FID, neither
  link  consistent, missing record (the child's linkEA lacks directory and name)

A directory is visible if it is ROOT or has a linkEA, or if that holds of one
that is reached by following '..' upward; else it is hidden, and its entries are
left out of a mending.

  --mend         mend: a child without self FID takes that of its first entry
                 that has one; each entry gets the self FID of its child;
                 missing records are appended; then records without an entry,
                 and repeats, are removed. Saves both tables at once
  --dry-run, -n  with --mend: print what it would, write nothing
  --summary      print these numbers alone; with --mend, leave out the list of
                 changes

What it changes stands in the log (see log), and undo takes it back.

  38  a record outgrows the room for its child's linkEA: the mending stops in
      front of that entry. What was done before it is saved, and no record is
      removed

Exit status: 0 done, 2 the names are refused (11, 16, 31 or 39; see check),
3 the room for a linkEA ran out (38), 74 there are no names.
";

const LOG: &str = "\
Usage: lfsck-offline log DIR [FID] [--json]

Tells what was done in the case, from the log that each run that changes a table
is written into: when, by which version, under which policy, from where to
where, the repairs, and every change. With FID, the story of that file or
object: the changes that concern it, each with the time and the class that was
mended; a generation that repairs of several classes raised has none. Mendings
of names are told in the same way: how many self FIDs were taken, FID-in-dirents
written, records appended and removed, and every change. Of a conversion it says
how many rows were widened, from what to what.
";

const UNDO: &str = "\
Usage: lfsck-offline undo DIR [--json]

Takes the last run of the log back, row by row, and puts the saved position back
that was there before it. The tables must still be what that run left. The undo
is written into the log, and is not taken back itself; a conversion is not taken
back either. Where the log ends with a mending of names, that is taken back, and
the position stays.

Exit status: 2 where there is no run to take back, or the tables were changed
since.
";

const CONVERT: &str = "\
Usage: lfsck-offline convert DIR [--json]

Makes a case of an earlier edition one of this edition, 2026-09. In editions
before 2026-07 the rows of parents.tbl had 3,915 bytes, for at most 160 slots;
each is widened to 48,075 bytes, for at most 2,000 slots, by zeros at its end.
What stands in the rows is not judged and stays, and so do the other tables. The
saved position is thrown away: no run is taken up across editions. All is saved
at once, with an entry in the log, and is not taken back by undo.

Where the rows are as wide already, as those of editions 2026-07 and 2026-08, or
there are none, a saved position of another edition, or one that cannot be read,
is thrown away; else there is nothing to convert, and nothing is written. No
stripe size is changed: check tells the layouts that this edition refuses.

Exit status: 2 where the rows of parents.tbl are neither as wide as here nor as
wide as there.
";

const LINK: &str = "\
Usage: lfsck-offline link FILE [--json]

Prints a linkEA, the value of trusted.link: record count, total length, overflow
time and padding, and each record with its place, the FID of the parent
directory and the name. With - for FILE it is read from standard input.

FILE holds the linkEA's bytes, or 0x and hexadecimal digits of either case, as
    getfattr -e hex -n trusted.link PATH
prints them: on one line, also after 'trusted.link=', with empty lines, comments
(#) and other attributes round it. What begins with the bytes df f1 ea 11 is
taken as it is; else digits are looked for; what is neither is taken as it is.
FILE has at most 262,144 bytes.

Names are in quotes. Bytes other than printable ASCII are \\x and two digits, a
quote and a backslash have a backslash before them. In JSON a name that is UTF-8
is a text, else null, and all are in hexadecimal digits too.

Exit status: 2 where FILE is too long, or no linkEA (31); then the line says
which rule is broken, and at which place.
";

const INTAKE: &str = "\
Usage: lfsck-offline intake DIR --owners FILE [DUMP..] [--spare-files N]
                            [--spare-objects N] [--reserve FILE] [--json]

Makes a case in DIR, which is made where it is missing, from dumps: what
    getfattr -d -m '^trusted\\.' -e hex PATH..
prints on an MDT and on OSTs. An entry with trusted.lov becomes a file, one with
trusted.fid an object; trusted.lma has the own FID of both. Other attributes
beginning with trusted. are skipped. Without DUMP, or with - for one, standard
input is read. Of several dumps each is whole; the owners go on over all.

  --owners FILE      a line for each entry of the dumps, in their order: uid,
                     gid and OST index in decimal numbers, with one space
                     between; the index of a file must be there and isn't used;
                     at most 64 MiB
  --spare-files N    add N unused rows to the files, for those that runs make
  --spare-objects N  add N unused rows to the objects, for those that runs make
  --reserve FILE     the FIDs for new objects, one in a line, at most 65,536;
                     empty lines and lines that begin with # are skipped

A fault is told with file, line and reason, and the line is shown; with --json
these are the members of fault. Then no case is made. Files of a case that are
already there are not overwritten.

  33  bad line, digits, length or owners, or the dump ends within an entry
  34  trusted.lov, trusted.fid or trusted.lma twice in an entry
  35  no trusted.lma
  36  neither trusted.lov nor trusted.fid, or both
  37  layout too long, or too many files or objects

The case is then checked as check does it. What is refused is listed row by row,
with the name in the dump; the case stays.

Exit status: 0 the tables are sound, 2 a dump is refused or the tables are not
sound.
";

#[cfg(test)]
mod tests {
    use numbers::{layout, parent};

    use super::*;
    use crate::narrow;
    use crate::saved::EDITION;

    /// A number of four digits or more as people write it.
    fn grouped(number: usize) -> String {
        format!("{},{:03}", number / 1000, number % 1000)
    }

    /// The edition and the sizes of rows in the help are those of the code.
    #[test]
    fn the_help_has_the_edition_and_its_sizes() {
        let convert = Topic::Convert.text();
        for text in [Topic::Run.text(), convert] {
            assert!(text.contains(EDITION), "{text}");
        }
        for number in [narrow::BYTES, parent::BYTES, layout::MOST_SLOTS] {
            assert!(convert.contains(&grouped(number)), "{number}");
        }
        assert!(convert.contains(&format!("at most {} slots", narrow::SLOTS)));
        assert!(convert.contains(&format!("before {} ", narrow::BEFORE)));
        let unit = grouped(layout::STRIPE_UNIT as usize);
        assert!(Topic::Check.text().contains(&format!("of {unit},")));
    }
}
