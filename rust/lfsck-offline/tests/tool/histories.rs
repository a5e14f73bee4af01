//! Random histories of a case: runs, mendings of names, crashes, and people who change files in
//! between. A model says where each run begins and what it leaves.

use difftest::names::random_names;
use difftest::tables::{OBJECTS, Shape, random_tables, to_bytes};
use difftest::{Coverage, Random};

use crate::json::{self, Value};
use crate::namespace::{CHILDREN, ENTRIES, MEND, pass, put};
use crate::oracle;
use crate::tool::{Case, Files, LOG, POSITION, sha256};

const SHAPE: Shape = Shape {
    parents: 5,
    objects: 9,
    slots: 4,
    files: 5,
    fids: 7,
};

/// The tables that runs change together, and those that mendings do.
const TABLES: [&str; 3] = ["parents.tbl", "objects.tbl", "reserve.tbl"];
const NAMES: [&str; 2] = [ENTRIES, CHILDREN];

/// These files alone.
fn part(files: &Files, names: &[&str]) -> Files {
    let of_name = |name: &&str| (name.to_string(), files[*name].clone());
    names.iter().map(of_name).collect()
}

/// A position counts with the policy and the tables that it was saved with.
#[derive(Clone)]
struct Saved {
    position: [u64; 3],
    policy: u64,
    tables: Files,
}

/// The tables as they must be, the position that must have been saved, and the log.
#[derive(Clone)]
struct Model {
    tables: Files,
    saved: Option<Saved>,
    log: Vec<Logged>,
}

/// An entry of the log: the tables that it changed together, the model before it and these tables
/// after it; an undo is not taken back.
#[derive(Clone)]
struct Logged {
    tables: &'static [&'static str],
    before: Option<Box<Model>>,
    after: Files,
}

/// What is asked of a run.
struct Asked {
    policy: u64,
    steps: Option<u64>,
    from_start: bool,
}

impl Asked {
    fn random(random: &mut Random) -> Asked {
        Asked {
            policy: random.pick(&[0, 1, 2, 3, 3, 3]),
            steps: (!random.one_in(4)).then(|| random.below(12) as u64),
            from_start: random.one_in(6),
        }
    }

    fn words(&self) -> Vec<String> {
        let mut words = vec!["run".to_string()];
        words.extend((self.policy & 1 == 1).then(|| "--create".to_string()));
        words.extend((self.policy & 2 == 2).then(|| "--adopt".to_string()));
        words.extend(self.steps.map(|steps| format!("--steps={steps}")));
        words.extend(self.from_start.then(|| "--from-start".to_string()));
        words.push("--json".to_string());
        words
    }
}

impl Model {
    /// What a run does: whether it goes on, its outcome, and the model after it.
    fn after(&self, asked: &Asked) -> (bool, oracle::Run, Model) {
        let tables = part(&self.tables, &TABLES);
        let counts = |saved: &&Saved| saved.policy == asked.policy && saved.tables == tables;
        let saved = self.saved.as_ref().filter(|_| !asked.from_start);
        let resumed = saved.filter(counts);
        let most = asked.steps.unwrap_or(u64::MAX);
        let run = match resumed {
            Some(saved) => oracle::run_from(&self.tables, saved.position, asked.policy, most),
            None => oracle::run(&self.tables, asked.policy, most),
        };
        let mut after = self.clone();
        after
            .tables
            .insert(TABLES[0].to_string(), run.parents.clone());
        after
            .tables
            .insert(TABLES[1].to_string(), run.objects.clone());
        if run.report[0] > 0 {
            after.saved = Some(Saved {
                position: run.position,
                policy: asked.policy,
                tables: part(&after.tables, &TABLES),
            });
        }
        after.log_since(self, &TABLES);
        (resumed.is_some(), run, after)
    }

    /// What a mending does: its answer, and the model after it.
    fn mended(&self) -> (u32, Model) {
        let passed = pass(&self.tables);
        let mut after = self.clone();
        after.tables.insert(ENTRIES.to_string(), passed.entries);
        after.tables.insert(CHILDREN.to_string(), passed.children);
        after.log_since(self, &NAMES);
        (passed.answer, after)
    }

    /// Adds an entry to the log where these tables have changed.
    fn log_since(&mut self, before: &Model, tables: &'static [&'static str]) {
        if self.tables != before.tables {
            self.log.push(Logged {
                tables,
                before: Some(Box::new(before.clone())),
                after: part(&self.tables, tables),
            });
        }
    }

    /// What an undo does; none where it is refused.
    fn undone(&self) -> Option<Model> {
        let last = self.log.last()?;
        let left = part(&self.tables, last.tables) == last.after;
        let before = last.before.as_ref().filter(|_| left)?;
        let mut after = self.clone();
        after.tables.extend(part(&before.tables, last.tables));
        if last.tables == TABLES {
            after.saved = before.saved.clone();
        }
        after.log.push(Logged {
            tables: last.tables,
            before: None,
            after: part(&after.tables, last.tables),
        });
        Some(after)
    }

    /// Tables, position and log of the case are those of the model.
    fn is_in(&self, case: &Case) -> bool {
        let files = case.files();
        let tables = self
            .tables
            .iter()
            .all(|(name, table)| files[name] == *table);
        let log = files
            .get(LOG)
            .map_or("", |log| str::from_utf8(log).unwrap());
        let entries: Vec<Value> = log.split_inclusive('\n').map(json::parse).collect();
        let last = entries.last().zip(self.log.last());
        let is_last = last.is_none_or(|(entry, logged)| {
            let digest = |(name, table): (&String, &Vec<u8>)| {
                let digest = Value::Text(sha256(table));
                (name.clone(), digest)
            };
            *entry.get("after") == Value::Object(logged.after.iter().map(digest).collect())
        });
        let position = files
            .get(POSITION)
            .map(|text| str::from_utf8(text).unwrap());
        let is_position = match (position, &self.saved) {
            (None, None) => true,
            (Some(text), Some(saved)) => {
                let [stage, row, part] = saved.position;
                text.contains(&format!(
                    "\nposition {stage} {row} {part}\npolicy {}\n",
                    saved.policy
                ))
            }
            _ => false,
        };
        tables && is_last && is_position && entries.len() == self.log.len()
    }
}

/// A case and its model.
struct History {
    case: Case,
    model: Model,
    snapshots: Vec<Files>,
}

impl History {
    /// A new case, whose names a mending can mend, or one that stops.
    fn new(name: &str, mending: u32, random: &mut Random) -> History {
        let (parents, objects) = to_bytes(&random_tables(SHAPE, random), random);
        let reserve: Vec<u8> = OBJECTS.iter().flat_map(|fid| fid.to_bytes()).collect();
        let case = Case::with(name, &parents, &objects, &reserve);
        loop {
            put(&case, &random_names(random));
            if pass(&case.files()).answer == mending {
                break;
            }
        }
        let tables = case.files();
        History {
            model: Model {
                tables: tables.clone(),
                saved: None,
                log: Vec::new(),
            },
            snapshots: vec![tables],
            case,
        }
    }

    /// Something happens, and the case is as the model says.
    fn go_on(&mut self, random: &mut Random) -> &'static str {
        let what = match random.below(14) {
            0 | 1 => self.meddle(random),
            2 => self.refuse(),
            3 | 4 => self.crash(random),
            5 | 6 => self.undo(random),
            7 | 8 => self.mend(),
            9 => self.crash_mending(random),
            _ => self.run(random),
        };
        assert!(self.model.is_in(&self.case), "after {what}");
        what
    }

    fn run(&mut self, random: &mut Random) -> &'static str {
        let asked = Asked::random(random);
        let (resumed, run, after) = self.model.after(&asked);
        let words = asked.words();
        let words: Vec<&str> = words.iter().map(String::as_str).collect();
        let status = match run.answer {
            answer @ (0 | 1) => answer as i32,
            _ => 3,
        };
        let told = json::parse(&self.case.run(&words).expect(status).out);
        assert_eq!(*told.get("resumed"), json::Value::Bool(resumed));
        assert_eq!(told.number("answer"), run.answer.into());
        assert_eq!(told.number("steps_done"), run.report[0]);
        let position = ["stage", "row", "part"].map(|name| told.number(name));
        assert_eq!(position, run.position);
        let had_saved = self.model.saved.is_some();
        self.model = after;
        self.snapshots.push(self.model.tables.clone());
        match (resumed, asked.from_start, had_saved) {
            (true, ..) => "a run that goes on",
            (_, true, _) => "a run from the start, as asked",
            (_, _, true) => "a run that must not go on",
            _ => "a run without saved position",
        }
    }

    /// A crash at any operation leaves the state before the run or the one after it.
    fn crash(&mut self, random: &mut Random) -> &'static str {
        let asked = Asked::random(random);
        let (_, _, after) = self.model.after(&asked);
        let words = asked.words();
        let words: Vec<&str> = words.iter().map(String::as_str).collect();
        let fault = format!("abort:{}", 1 + random.below(40));
        let position = || self.case.files().remove(POSITION);
        let before = position();
        let died = self.case.run_with_fault(&words, fault).status.is_none();
        self.reopen();
        let saved = position() != before || !self.model.is_in(&self.case);
        if saved {
            self.model = after;
        }
        match (died, saved) {
            (true, true) => "a crash after the save",
            (true, false) => "a crash before the save",
            (false, _) => "no crash",
        }
    }

    /// The next command after a crash. A mending that stopped may leave names that can't be judged.
    fn reopen(&self) {
        let told = self.case.run(&["check"]);
        let is_judged = pass(&self.case.files()).answer != 39;
        told.expect(if is_judged { 0 } else { 2 });
    }

    fn mend(&mut self) -> &'static str {
        let (answer, after) = self.model.mended();
        let (status, what) = match answer {
            0 if after.log.len() > self.model.log.len() => (0, "a mending"),
            0 => (0, "a mending that changes nothing"),
            38 => (3, "a mending that stops"),
            _ => (2, "a refusal"),
        };
        self.case.run(&MEND).expect(status);
        self.model = after;
        self.snapshots.push(self.model.tables.clone());
        what
    }

    /// A crash at any operation leaves the names before the mending or those after it.
    fn crash_mending(&mut self, random: &mut Random) -> &'static str {
        let (_, after) = self.model.mended();
        let fault = format!("abort:{}", 1 + random.below(30));
        self.case.run_with_fault(&MEND, fault);
        self.reopen();
        let saved = !self.model.is_in(&self.case);
        if saved {
            self.model = after;
        }
        match saved {
            true => "a mending that is cut off after the save",
            false => "a mending that is cut off before the save",
        }
    }

    /// The last run is taken back, or the undo is cut off before or after its save.
    fn undo(&mut self, random: &mut Random) -> &'static str {
        let Some(after) = self.model.undone() else {
            let before = self.case.files();
            self.case.run(&["undo"]).expect(2);
            assert!(self.case.files() == before);
            return "an undo that is refused";
        };
        if random.one_in(2) {
            self.case.run(&["undo"]).expect(0);
            self.model = after;
            return match self.model.log.last().map(|last| last.tables) {
                Some(tables) if tables == NAMES => "an undo of a mending",
                _ => "an undo",
            };
        }
        let fault = format!("abort:{}", 1 + random.below(40));
        self.case.run_with_fault(&["undo"], fault);
        self.reopen();
        if after.is_in(&self.case) {
            self.model = after;
        }
        "an undo that is cut off"
    }

    /// Somebody changes an owner, the reserve or a FID-in-dirent, or puts older tables back.
    fn meddle(&mut self, random: &mut Random) -> &'static str {
        let kind = random.below(4);
        let entries = self.model.tables.get_mut(ENTRIES).expect("entries");
        if let (3, Some(byte)) = (kind, entries.get_mut(20)) {
            *byte ^= 1;
            self.put(ENTRIES);
            return "another FID-in-dirent";
        }
        let objects = self.model.tables.get_mut(TABLES[1]).expect("objects");
        let used = objects.chunks_mut(46).find(|row| row[0] == 1);
        if let (0, Some(row)) = (kind, used) {
            row[21] ^= 1;
            self.put(TABLES[1]);
            "another owner"
        } else if kind == 1 {
            let reserve = self.model.tables.get_mut(TABLES[2]).expect("reserve");
            reserve.rotate_left(16);
            self.put(TABLES[2]);
            "another reserve"
        } else {
            let older = random.below(self.snapshots.len());
            self.model.tables = self.snapshots[older].clone();
            let names = TABLES.iter().chain(&NAMES);
            names.for_each(|name| self.put(name));
            "older tables"
        }
    }

    fn put(&self, name: &str) {
        self.case.write(name, &self.model.tables[name]);
    }

    /// Tables that are refused change nothing, and neither does the position.
    fn refuse(&self) -> &'static str {
        self.case.edit(TABLES[0], |bytes| bytes.push(0));
        let before = self.case.files();
        self.case
            .run(&["run", "--create"])
            .expect_line(2, "refused with 11");
        assert_eq!(self.case.files(), before);
        self.put(TABLES[0]);
        "a refusal"
    }
}

/// What may happen to a case.
const HAPPENS: [&str; 21] = [
    "a run that goes on",
    "a run from the start, as asked",
    "a run that must not go on",
    "a run without saved position",
    "a crash after the save",
    "a crash before the save",
    "no crash",
    "another owner",
    "another reserve",
    "older tables",
    "a refusal",
    "an undo",
    "an undo that is refused",
    "an undo that is cut off",
    "an undo of a mending",
    "a mending",
    "a mending that changes nothing",
    "a mending that stops",
    "a mending that is cut off before the save",
    "a mending that is cut off after the save",
    "another FID-in-dirent",
];

#[test]
fn a_case_is_always_as_its_history_says() {
    let mut random = Random::for_test("histories");
    let mut met = Coverage::of("histories", HAPPENS);
    for round in 0..40 {
        let mending = if round % 5 == 0 { 38 } else { 0 };
        let mut history = History::new(&format!("history-{round}"), mending, &mut random);
        (0..20).for_each(|_| met.met(history.go_on(&mut random)));
    }
    met.require(5);
}
