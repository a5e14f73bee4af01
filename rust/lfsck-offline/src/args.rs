//! The command line.

use std::ffi::{OsStr, OsString};
use std::io::{self, IsTerminal};
use std::path::PathBuf;
use std::str::FromStr;

use numbers::call::{ADOPT, CREATE};

use crate::class;
use crate::fid::{Fid, MdtFid, OstFid};
use crate::filter::{Filter, OwnerPattern};
use crate::help::Topic;
use crate::outcome::Failure;
use crate::source::{STANDARD, Source};

/// What is asked for.
#[derive(Debug, PartialEq, Eq)]
pub enum Command {
    /// Say how a command is used.
    Help(Topic),
    /// Say which version this is.
    Version,
    /// Make a case.
    Sample,
    /// Check the tables.
    Check,
    /// List the findings.
    Classes(ClassesOptions),
    /// Repair.
    Run(RunOptions),
    /// Show a file or an object.
    Show(ShowOptions),
    /// Tell what was done, to one file or object or to all.
    Log(Option<Fid>),
    /// Take the last run or mending back.
    Undo,
    /// Make a case of an earlier edition one of this.
    Convert,
    /// List the findings of names, or mend them.
    Names(NamesOptions),
    /// Print a linkEA.
    Link(Source),
    /// Make a case from dumps.
    Intake(IntakeOptions),
}

/// What to list, and how.
#[derive(Clone, Debug, Default, PartialEq, Eq)]
pub struct ClassesOptions {
    /// Which positions.
    pub filter: Filter,
    /// Their number by class alone.
    pub summary: bool,
    /// Let the exit status tell whether there is something to mend.
    pub exit_code: bool,
}

/// What to show, and how.
#[derive(Clone, Copy, Debug, PartialEq, Eq)]
pub struct ShowOptions {
    /// The file or object.
    pub fid: Fid,
    /// Tell which records each repair writes.
    pub writes: bool,
}

/// How to repair.
#[derive(Clone, Copy, Debug, Default, PartialEq, Eq)]
pub struct RunOptions {
    /// Bit 0 create, bit 1 adopt.
    pub policy: u64,
    /// The greatest number of steps.
    pub steps: Option<u64>,
    /// Leave the saved position aside.
    pub from_start: bool,
    /// Write nothing.
    pub dry_run: bool,
    /// Leave out the list of changes.
    pub summary: bool,
}

/// What to do with names.
#[derive(Clone, Copy, Debug, Default, PartialEq, Eq)]
pub struct NamesOptions {
    /// Mend them.
    pub mend: bool,
    /// Write nothing.
    pub dry_run: bool,
    /// Leave out the list of findings, or of changes.
    pub summary: bool,
}

/// What to make a case from.
#[derive(Clone, Debug, PartialEq, Eq)]
pub struct IntakeOptions {
    /// The owners file.
    pub owners: Source,
    /// The dumps, in their order; at least one.
    pub dumps: Vec<Source>,
    /// The list of FIDs for the reserve.
    pub reserve: Option<Source>,
    /// Unused rows to be added to the parent table.
    pub spare_files: usize,
    /// Unused rows to be added to the object table.
    pub spare_objects: usize,
}

impl IntakeOptions {
    /// All that is read.
    fn sources(&self) -> impl Iterator<Item = &Source> {
        self.dumps.iter().chain([&self.owners]).chain(&self.reserve)
    }

    /// Whether somebody types what is read.
    pub fn are_typed(&self) -> bool {
        let standard = self.sources().any(|source| *source == Source::Standard);
        standard && io::stdin().is_terminal()
    }
}

/// A command, the case and the form of the output.
#[derive(Debug, PartialEq, Eq)]
pub struct Call {
    /// The command.
    pub command: Command,
    /// The case.
    pub directory: PathBuf,
    /// Whether to print JSON.
    pub json: bool,
}

/// The options that narrow a list.
const FILTERS: [&str; 5] = ["--only", "--file", "--object", "--ost", "--owner"];

/// The options of an intake.
const INTAKE: [&str; 4] = ["--owners", "--reserve", "--spare-files", "--spare-objects"];

/// The words of a command line, sorted.
#[derive(Default)]
struct Words {
    places: Vec<OsString>,
    json: bool,
    help: bool,
    create: bool,
    adopt: bool,
    from_start: bool,
    dry_run: bool,
    summary: bool,
    exit_code: bool,
    mend: bool,
    writes: bool,
    steps: Option<String>,
    filter: Filter,
    owners: Option<Source>,
    reserve: Option<Source>,
    spare_files: usize,
    spare_objects: usize,
}

impl Call {
    /// The call that some words make.
    pub fn parse(words: impl IntoIterator<Item = OsString>) -> Result<Call, Failure> {
        let mut words = words.into_iter();
        let Some(name) = words.next() else {
            return Err(Failure::usage("a command is missing"));
        };
        if name == "--version" || name == "-V" {
            let words = Words::sort(words, Topic::All)?;
            words.expect_places(0)?;
            return Ok(Call {
                json: words.json,
                ..Call::without_case(Command::Version)
            });
        }
        let topic = topic_of(&name)?;
        let words = Words::sort(words, topic)?;
        match topic {
            Topic::All => Ok(Call::without_case(Command::Help(words.topic()?))),
            _ if words.help => Ok(Call::without_case(Command::Help(topic))),
            Topic::Link => words.link(),
            _ => words.call(topic),
        }
    }

    /// Whether the words ask for JSON, also where they make no call.
    pub fn wants_json(words: impl IntoIterator<Item = OsString>) -> bool {
        let mut options = words.into_iter().take_while(|word| word != "--");
        options.any(|word| word == "--json")
    }

    fn without_case(command: Command) -> Call {
        Call {
            command,
            directory: PathBuf::new(),
            json: false,
        }
    }
}

impl Words {
    fn sort(words: impl Iterator<Item = OsString>, topic: Topic) -> Result<Words, Failure> {
        let mut sorted = Words::default();
        let mut words = words;
        let mut options_end = false;
        while let Some(word) = words.next() {
            match word.to_str() {
                Some("--") if !options_end => options_end = true,
                Some(STANDARD) if topic.takes_standard() => sorted.places.push(word),
                Some(option) if option.starts_with('-') && !options_end => {
                    sorted.add_option(option, topic, &mut words)?;
                }
                _ => sorted.places.push(word),
            }
        }
        Ok(sorted)
    }

    fn add_option(
        &mut self,
        option: &str,
        topic: Topic,
        words: &mut impl Iterator<Item = OsString>,
    ) -> Result<(), Failure> {
        let (name, value) = match option.split_once('=') {
            Some((name, value)) => (name, Some(value.to_string())),
            None => (option, None),
        };
        let mut word_of = |name: &str| {
            let word = value.clone().map(OsString::from).or_else(|| words.next());
            word.ok_or_else(|| no_value(name))
        };
        match (topic, name) {
            (Topic::Run, "--steps") => self.steps = Some(text_of(name, word_of(name)?)?),
            (Topic::Classes, name) if FILTERS.contains(&name) => {
                self.add_filter(name, &text_of(name, word_of(name)?)?)?;
            }
            (Topic::Intake, name) if INTAKE.contains(&name) => {
                self.add_intake(name, word_of(name)?)?;
            }
            (_, _) if value.is_some() => return Err(unknown(option)),
            (_, "--help" | "-h") => self.help = true,
            (_, "--json") => self.json = true,
            (Topic::Run, "--create") => self.create = true,
            (Topic::Run, "--adopt") => self.adopt = true,
            (Topic::Run, "--from-start") => self.from_start = true,
            (Topic::Run | Topic::Names, "--dry-run" | "-n") => self.dry_run = true,
            (Topic::Classes | Topic::Run | Topic::Names, "--summary") => self.summary = true,
            (Topic::Names, "--mend") => self.mend = true,
            (Topic::Classes, "--exit-code") => self.exit_code = true,
            (Topic::Show, "--writes") => self.writes = true,
            _ => return Err(unknown(option)),
        }
        Ok(())
    }

    fn add_filter(&mut self, name: &str, value: &str) -> Result<(), Failure> {
        let filter = &mut self.filter;
        match name {
            "--only" => filter.classes.push(class_of(value)?),
            "--file" => filter.files.push(MdtFid(fid_of(value)?)),
            "--object" => filter.objects.push(OstFid(fid_of(value)?)),
            "--ost" => filter.osts.push(number(value, "OST index")?),
            _ => filter.owners.push(owner_of(value)?),
        }
        Ok(())
    }

    fn add_intake(&mut self, name: &str, word: OsString) -> Result<(), Failure> {
        let file = |word: OsString| match word.is_empty() {
            true => Err(no_value(name)),
            false => Ok(Some(Source::of_word(word))),
        };
        let rows = |word| number(&text_of(name, word)?, "number of rows");
        match name {
            "--owners" => self.owners = file(word)?,
            "--reserve" => self.reserve = file(word)?,
            "--spare-files" => self.spare_files = rows(word)?,
            _ => self.spare_objects = rows(word)?,
        }
        Ok(())
    }

    /// At most so many words that are no options.
    fn expect_places(&self, most: usize) -> Result<(), Failure> {
        match self.places.get(most) {
            None => Ok(()),
            Some(word) => {
                let word = word.display();
                Err(Failure::usage(format!("'{word}' is one word too many")))
            }
        }
    }

    /// What help is asked for: of a command, or of all.
    fn topic(&self) -> Result<Topic, Failure> {
        self.expect_places(1)?;
        self.places
            .first()
            .map_or(Ok(Topic::All), |name| topic_of(name))
    }

    /// The call of `link`, whose place is a file.
    fn link(mut self) -> Result<Call, Failure> {
        self.expect_places(1)?;
        let place = self.places.pop().filter(|place| !place.is_empty());
        let missing = || Failure::usage("the file of the linkEA is missing");
        let source = Source::of_word(place.ok_or_else(missing)?);
        Ok(Call {
            json: self.json,
            ..Call::without_case(Command::Link(source))
        })
    }

    fn call(mut self, topic: Topic) -> Result<Call, Failure> {
        self.expect_places(topic.most_places())?;
        let directory = self.directory(topic)?;
        let json = self.json;
        let command = match topic {
            Topic::Sample => Command::Sample,
            Topic::Check => Command::Check,
            Topic::Classes => Command::Classes(ClassesOptions {
                filter: self.filter,
                summary: self.summary,
                exit_code: self.exit_code,
            }),
            Topic::Run => Command::Run(self.run_options()?),
            Topic::Show => Command::Show(ShowOptions {
                fid: self.shown()?,
                writes: self.writes,
            }),
            Topic::Log if self.places.is_empty() => Command::Log(None),
            Topic::Log => Command::Log(Some(self.shown()?)),
            Topic::Undo => Command::Undo,
            Topic::Convert => Command::Convert,
            Topic::Names => Command::Names(self.names_options()?),
            Topic::Intake => Command::Intake(self.intake_options()?),
            Topic::All | Topic::Link => Command::Help(topic),
        };
        Ok(Call {
            command,
            directory,
            json,
        })
    }

    /// The directory of the case, which is the first place.
    fn directory(&mut self, topic: Topic) -> Result<PathBuf, Failure> {
        let missing = "the directory of the case is missing";
        if self.places.first().is_none_or(|place| place.is_empty()) {
            return Err(Failure::usage(missing));
        }
        let place = self.places.remove(0);
        match place == STANDARD && topic.takes_standard() {
            true => Err(Failure::usage(format!(
                "{missing}: '-' is standard input, and './-' a directory of that name"
            ))),
            false => Ok(place.into()),
        }
    }

    fn run_options(&self) -> Result<RunOptions, Failure> {
        let steps = self.steps.as_ref();
        Ok(RunOptions {
            policy: CREATE * u64::from(self.create) + ADOPT * u64::from(self.adopt),
            steps: steps
                .map(|steps| number(steps, "number of steps"))
                .transpose()?,
            from_start: self.from_start,
            dry_run: self.dry_run,
            summary: self.summary,
        })
    }

    fn names_options(&self) -> Result<NamesOptions, Failure> {
        if self.dry_run && !self.mend {
            return Err(Failure::usage(
                "--dry-run is of a mending: --mend is missing",
            ));
        }
        Ok(NamesOptions {
            mend: self.mend,
            dry_run: self.dry_run,
            summary: self.summary,
        })
    }

    /// The options of an intake; the places that are left are dumps.
    fn intake_options(mut self) -> Result<IntakeOptions, Failure> {
        let missing = || Failure::usage("--owners FILE is missing");
        let owners = self.owners.ok_or_else(missing)?;
        if self.places.is_empty() {
            self.places.push(STANDARD.into());
        }
        if self.places.iter().any(|place| place.is_empty()) {
            return Err(Failure::usage("a dump has no name"));
        }
        let options = IntakeOptions {
            owners,
            dumps: self.places.into_iter().map(Source::of_word).collect(),
            reserve: self.reserve,
            spare_files: self.spare_files,
            spare_objects: self.spare_objects,
        };
        let standard = options.sources().filter(|it| **it == Source::Standard);
        match standard.count() {
            0 | 1 => Ok(options),
            _ => Err(Failure::usage("standard input can be read only once")),
        }
    }

    /// The FID of what is to be shown.
    fn shown(&self) -> Result<Fid, Failure> {
        let missing = || Failure::usage("the FID is missing");
        let word = self.places.first().ok_or_else(missing)?;
        fid_of(&word.to_string_lossy())
    }
}

fn no_value(name: &str) -> Failure {
    Failure::usage(format!("{name} needs a value"))
}

/// The value of an option, as a text.
fn text_of(name: &str, word: OsString) -> Result<String, Failure> {
    word.into_string().map_err(|_| no_value(name))
}

fn unknown(option: &str) -> Failure {
    Failure::usage(format!("there is no option '{option}' here"))
}

fn topic_of(name: &OsStr) -> Result<Topic, Failure> {
    Topic::of_word(name).ok_or_else(|| {
        let name = name.display();
        Failure::usage(format!("there is no command '{name}'"))
    })
}

/// A number in decimal digits alone.
fn number<Number: FromStr>(text: &str, what: &str) -> Result<Number, Failure> {
    let digits = text.bytes().all(|digit| digit.is_ascii_digit());
    let number = text.parse().ok().filter(|_| digits);
    number.ok_or_else(|| Failure::usage(format!("'{text}' is no {what}")))
}

fn class_of(name: &str) -> Result<usize, Failure> {
    let mut names = class::NAMES.iter();
    names
        .position(|known| known.eq_ignore_ascii_case(name))
        .ok_or_else(|| Failure::usage(format!("there is no class '{name}'")))
}

fn fid_of(word: &str) -> Result<Fid, Failure> {
    Fid::parse(word).ok_or_else(|| Failure::usage(format!("'{word}' is no FID")))
}

/// A uid, or a uid and a gid.
fn owner_of(word: &str) -> Result<OwnerPattern, Failure> {
    let (uid, gid) = match word.split_once(':') {
        Some((uid, gid)) => (uid, Some(number(gid, "gid")?)),
        None => (word, None),
    };
    Ok(OwnerPattern {
        uid: number(uid, "uid")?,
        gid,
    })
}

#[cfg(test)]
mod tests {
    use super::*;
    use crate::outcome::Status;

    fn parse(line: &str) -> Result<Call, Failure> {
        Call::parse(line.split_whitespace().map(OsString::from))
    }

    fn call(line: &str) -> Call {
        parse(line).unwrap_or_else(|failure| panic!("{line}: {}", failure.message))
    }

    /// None of these lines is a call.
    fn expect_refused(lines: &[&str]) {
        for line in lines {
            let failure = parse(line).expect_err(line);
            assert_eq!(failure.status, Status::Usage, "{line}");
        }
    }

    #[test]
    fn options_may_stand_anywhere() {
        let expected = Command::Run(RunOptions {
            policy: 3,
            steps: Some(7),
            from_start: true,
            dry_run: true,
            summary: true,
        });
        for line in [
            "run d --create --adopt --steps 7 --from-start --dry-run --summary --json",
            "run --json --from-start --steps=7 -n --summary --adopt --create d",
        ] {
            let call = call(line);
            assert_eq!(call.command, expected);
            assert_eq!(call.directory, PathBuf::from("d"));
            assert!(call.json);
        }
        assert_eq!(call("check -- -d").directory, PathBuf::from("-d"));
    }

    #[test]
    fn writes_are_an_option_of_show() {
        let fid = Fid::new(0x2_0000_0401, 1);
        for (line, writes) in [
            ("show d [0x200000401:1:0]", false),
            ("show d [0x200000401:1:0] --writes", true),
            ("show --writes d 0x200000401:1 --json", true),
        ] {
            let options = ShowOptions { fid, writes };
            assert_eq!(call(line).command, Command::Show(options), "{line}");
        }
        expect_refused(&["show d 1:1 --writes=1", "show d --writes", "show --writes"]);
        for other in [
            "sample d",
            "check d",
            "classes d",
            "run d",
            "log d",
            "log d 1:1",
            "undo d",
            "convert d",
            "names d",
            "names d --mend",
            "link f",
            "intake d --owners o",
            "help show",
            "--version",
        ] {
            expect_refused(&[&format!("{other} --writes")]);
        }
    }

    #[test]
    fn a_log_is_of_all_or_of_one() {
        assert_eq!(call("log d").command, Command::Log(None));
        let one = Command::Log(Some(Fid::new(0x2_0000_0401, 1)));
        assert_eq!(call("log d 0x200000401:1 --json").command, one);
        assert_eq!(call("undo d").command, Command::Undo);
    }

    #[test]
    fn a_conversion_has_no_options_of_its_own() {
        assert_eq!(call("convert d").command, Command::Convert);
        assert!(call("convert --json d").json);
        expect_refused(&["convert", "convert d e", "convert d --dry-run", "convert -"]);
        expect_refused(&["convert d --from-start", "convert d --mend"]);
    }

    #[test]
    fn names_are_listed_or_mended() {
        let options = |line: &str| match call(line).command {
            Command::Names(options) => options,
            other => panic!("{line}: {other:?}"),
        };
        let none = NamesOptions::default();
        assert_eq!(options("names d"), none);
        let summary = true;
        assert_eq!(
            options("names --summary d"),
            NamesOptions { summary, ..none }
        );
        let mend = NamesOptions { mend: true, ..none };
        assert_eq!(options("names d --mend --json"), mend);
        let dry_run = true;
        for line in ["names d --mend --dry-run", "names -n --mend d"] {
            assert_eq!(options(line), NamesOptions { dry_run, ..mend }, "{line}");
        }
        expect_refused(&["names", "names d e", "names d --dry-run", "names d -n"]);
        expect_refused(&["names d --create", "names d --steps 1", "names -"]);
        expect_refused(&["run d --mend", "check d --mend", "names d --mend=1"]);
    }

    #[test]
    fn a_linkea_is_in_a_file_or_in_standard_input() {
        let file = |name: &str| Command::Link(Source::File(name.into()));
        for (line, command) in [
            ("link f", file("f")),
            ("link --json f", file("f")),
            ("link -- -f", file("-f")),
            ("link ./-", file("./-")),
            ("link -", Command::Link(Source::Standard)),
            ("link - --json", Command::Link(Source::Standard)),
            ("link -- -", Command::Link(Source::Standard)),
        ] {
            let call = call(line);
            assert_eq!(call.command, command, "{line}");
            assert_eq!(call.json, line.contains("--json"));
        }
        let words = ["link", ""].map(OsString::from);
        let failure = Call::parse(words).expect_err("no file");
        assert_eq!(failure.status, Status::Usage);
        assert!(failure.message.contains("the file"), "{failure:?}");
    }

    #[test]
    fn dumps_are_files_or_standard_input() {
        let file = |name: &str| Source::File(name.into());
        let options = |line: &str| match call(line).command {
            Command::Intake(options) => options,
            other => panic!("{line}: {other:?}"),
        };
        let expected = IntakeOptions {
            owners: file("o"),
            dumps: vec![file("a"), Source::Standard, file("b")],
            reserve: Some(file("r")),
            spare_files: 2,
            spare_objects: 3,
        };
        for line in [
            "intake d a - b --owners o --reserve r --spare-files 2 --spare-objects 3",
            "intake --spare-files=2 --owners=o d --reserve=r a - --spare-objects=3 -- b",
        ] {
            assert_eq!(options(line), expected, "{line}");
        }
        let least = options("intake d --owners o");
        assert_eq!(least.dumps, [Source::Standard]);
        assert_eq!((least.spare_files, least.spare_objects), (0, 0));
        assert_eq!(options("intake d a --owners -").owners, Source::Standard);
    }

    #[test]
    fn an_intake_needs_owners_and_reads_standard_input_once() {
        expect_refused(&[
            "intake d",
            "intake d a",
            "intake --owners o",
            "intake d a --owners",
            "intake d --owners -",
            "intake d - - --owners o",
            "intake d a - --owners o --reserve -",
            "intake d a --owners o --spare-files x",
            "intake d a --owners o --spare-files -1",
            "intake d a --owners=",
            "intake d a --owners o --steps 3",
        ]);
    }

    #[test]
    fn standard_input_is_no_directory() {
        for line in ["intake - --owners o", "intake --owners o -- - a"] {
            let failure = parse(line).expect_err(line);
            assert_eq!(failure.status, Status::Usage, "{line}");
            let words = "the directory of the case is missing: '-' is standard input";
            assert!(failure.message.starts_with(words), "{failure:?}");
        }
        assert_eq!(
            call("intake ./- --owners o").directory,
            PathBuf::from("./-")
        );
    }

    #[test]
    fn filters_may_be_given_several_times() {
        let Command::Classes(options) = call(
            "classes d --only multiple --only=OWNER --file 0x200000401:1 --object 0x240000400:2 \
             --ost 3 --ost=4 --owner 500 --owner 500:600 --summary --exit-code",
        )
        .command
        else {
            panic!("another command");
        };
        assert!(options.summary && options.exit_code);
        let owner = |gid| OwnerPattern { uid: 500, gid };
        let expected = Filter {
            classes: vec![3, 7],
            files: vec![MdtFid(Fid::new(0x2_0000_0401, 1))],
            objects: vec![OstFid(Fid::new(0x2_4000_0400, 2))],
            osts: vec![3, 4],
            owners: vec![owner(None), owner(Some(600))],
        };
        assert_eq!(options.filter, expected);
    }

    #[test]
    fn json_is_asked_for_before_the_options_end() {
        let wants = |line: &str| Call::wants_json(line.split_whitespace().map(OsString::from));
        assert!(wants("mend d --json") && wants("--json") && wants("check --json -- d"));
        assert!(!wants("check -- --json") && !wants("check d"));
    }

    #[test]
    fn help_is_for_each_command() {
        for (line, topic) in [
            ("--help", Topic::All),
            ("help", Topic::All),
            ("run --help", Topic::Run),
            ("show -h", Topic::Show),
            ("help classes", Topic::Classes),
            ("link --help", Topic::Link),
            ("link - -h", Topic::Link),
            ("help link", Topic::Link),
            ("help help", Topic::All),
        ] {
            assert_eq!(call(line).command, Command::Help(topic));
        }
        assert_eq!(call("--version").command, Command::Version);
    }

    #[test]
    fn an_empty_word_is_no_directory() {
        for command in ["sample", "check", "classes", "run", "show"] {
            let words = [command, "", "1:2"].map(OsString::from);
            let words = words
                .into_iter()
                .take(if command == "show" { 3 } else { 2 });
            let failure = Call::parse(words).expect_err(command);
            assert_eq!(failure.status, Status::Usage);
            assert!(failure.message.contains("directory"), "{failure:?}");
        }
    }

    #[test]
    fn anything_else_is_refused() {
        expect_refused(&[
            "",
            "mend d",
            "check",
            "check d e",
            "check d --create",
            "check d --json=1",
            "check d --summary",
            "check -",
            "run d --exit-code",
            "help mend",
            "help run show",
            "--version d",
            "--version --create",
            "show d",
            "show d 1",
            "show d 1:2:3 e",
            "log",
            "log d 1",
            "log d 1:2 e",
            "undo d e",
            "undo d --steps 1",
            "link",
            "link f g",
            "link - -",
            "link --only CLEAN f",
            "link -x",
        ]);
    }

    #[test]
    fn a_value_that_is_none_is_refused() {
        expect_refused(&[
            "run d --steps",
            "run d --steps -1",
            "run d --steps +1",
            "run d --steps 18446744073709551616",
            "classes d --only GOOD",
            "classes d --file 1",
            "classes d --ost -1",
            "classes d --owner 1:",
            "classes d --owner alice",
            "classes d --owner 4294967296",
        ]);
    }
}
