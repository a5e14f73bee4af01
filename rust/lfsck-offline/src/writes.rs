//! The records that a step writes, in the order in which they are to be stored: the one way to the
//! library's answer. Each call checks all tables.

use numbers::answer::{NO_OBJECT_ROW, NO_PARENT_ROW, NO_RESERVE, OK};
use numbers::call::{ROW, TABLE_OBJECTS, WRITES};

use crate::answers::meaning;
use crate::json::Json;
use crate::position::Position;
use crate::tables::{Table, Tables};

/// A record that is written whole: an object row, or a parent row with its layout.
#[derive(Clone, Copy, Debug, PartialEq, Eq)]
pub struct Record {
    /// Its table.
    pub table: Table,
    /// Its row.
    pub row: u64,
}

/// What a step writes.
#[derive(Clone, Debug, PartialEq, Eq)]
pub enum Writes {
    /// These, in their order.
    Records(Vec<Record>),
    /// Nothing: it cannot be made, and a run would stop in front of it with this number.
    Stop(u32),
}

/// What the step at a position writes under a policy; the library's number where it refuses the
/// tables.
pub fn writes(tables: &Tables, position: Position, policy: u64) -> Result<Writes, u32> {
    let mut numbers = [0; WRITES];
    let answer = lfsck_sys::step_writes(
        &tables.parents,
        &tables.objects,
        &tables.reserve,
        policy,
        position.to_numbers(),
        &mut numbers,
    );
    match answer {
        OK => Ok(Writes::Records(records(numbers))),
        NO_RESERVE | NO_OBJECT_ROW | NO_PARENT_ROW => Ok(Writes::Stop(answer)),
        _ => Err(answer),
    }
}

/// The records in the library's numbers.
fn records([count, rows @ ..]: [u64; WRITES]) -> Vec<Record> {
    let (rows, _) = rows.as_chunks::<ROW>();
    let record = |[table, row]: &[u64; ROW]| Record {
        table: match *table {
            TABLE_OBJECTS => Table::Objects,
            _ => Table::Parents,
        },
        row: *row,
    };
    rows.iter().take(count as usize).map(record).collect()
}

impl Record {
    fn words(self) -> String {
        let table = match self.table {
            Table::Objects => "object",
            _ => "parent",
        };
        format!("{table} row {}", self.row)
    }

    fn json(self) -> Json {
        Json::Object(vec![
            ("table", Json::text(self.table.file())),
            ("row", Json::Number(self.row)),
        ])
    }
}

impl Writes {
    /// For people.
    pub fn words(&self) -> String {
        match self {
            Writes::Records(records) => {
                let rows: Vec<String> = records.iter().map(|record| record.words()).collect();
                format!("writes {}", rows.join(", then "))
            }
            Writes::Stop(number) => {
                format!("the step would stop with {number}: {}", meaning(*number))
            }
        }
    }

    /// The records for machines; nothing where the step cannot be made.
    pub fn json(&self) -> Json {
        match self {
            Writes::Records(records) => {
                Json::List(records.iter().map(|record| record.json()).collect())
            }
            Writes::Stop(_) => Json::Null,
        }
    }

    /// The number with which a run would stop in front of the step.
    pub fn stop(&self) -> Option<u32> {
        match self {
            Writes::Records(_) => None,
            Writes::Stop(number) => Some(*number),
        }
    }
}

#[cfg(test)]
mod tests {
    use super::*;
    use crate::class::Class;
    use crate::finding::Finding;
    use crate::reuse;
    use crate::site::Site;
    use crate::slices;
    use crate::tables::Together;
    use crate::verdict::Verdicts;
    use difftest::tables::{OBJECTS, Shape};
    use difftest::{Coverage, Random};
    use numbers::answer::STEPS_USED;
    use numbers::{object, parent};

    const SHAPE: Shape = Shape {
        parents: 4,
        objects: 8,
        slots: 3,
        files: 3,
        fids: 8,
    };

    /// Every class with a repair and the tables that its step writes in, or why it is not made.
    const MET: [&str; 20] = [
        "SELF: parents",
        "MULTIPLE: objects, parents",
        "MULTIPLE: 21",
        "MULTIPLE: 22",
        "MULTIPLE, an object is used: objects, parents",
        "MULTIPLE, an object is used: parents",
        "DANGLING: objects",
        "DANGLING: 22",
        "BLANK: objects",
        "BLANK: objects, parents",
        "UNMATCHED: objects",
        "UNMATCHED: objects, parents",
        "WRONG-OST: parents",
        "WRONG-OST: objects, parents",
        "OWNER: objects",
        "EMPTY: objects",
        "ORPHAN: parents",
        "ORPHAN: parents, objects",
        "ORPHAN: parents, objects, objects",
        "ORPHAN: 23",
    ];

    /// Random tables, with room and FIDs for repairs or without.
    fn random_case(random: &mut Random) -> Tables {
        let mut tables = Tables::random_or_cut(SHAPE, random);
        if random.one_in(2) {
            tables.reserve = OBJECTS.iter().flat_map(|fid| fid.to_bytes()).collect();
        }
        if random.one_in(2) {
            tables.parents.extend([0; parent::BYTES]);
            tables.objects.extend([0; object::BYTES]);
        }
        tables
    }

    fn row(tables: &Tables, record: Record) -> &[u8] {
        let mut rows = tables.rows(record.table);
        rows.nth(record.row as usize).expect("a row")
    }

    /// Each record is another after the step, and nothing else is.
    fn expect_whole(old: &Tables, new: &Tables, records: &[Record]) {
        let mut stored = old.clone();
        for record in records {
            assert_ne!(row(old, *record), row(new, *record), "{record:?}");
            let bytes = row(new, *record).to_vec();
            let at = record.row as usize * record.table.row_bytes();
            let table = stored.of_mut(record.table).expect("a table");
            table[at..at + bytes.len()].copy_from_slice(&bytes);
        }
        assert_eq!(stored, *new);
    }

    /// What the reference tells, as the library's numbers.
    fn expect_reference(tables: &Tables, position: Position, policy: u64, told: &Writes) {
        let mut numbers = [0; WRITES];
        let answer = reference::interface::step_writes(
            &tables.parents,
            &tables.objects,
            &tables.reserve,
            policy,
            position.to_numbers(),
            &mut numbers,
        );
        let expected = match answer {
            OK => Writes::Records(records(numbers)),
            number => Writes::Stop(number),
        };
        assert_eq!(*told, expected, "{position:?}");
    }

    /// Which class writes in which tables.
    fn way_met(site: &Site, finding: &Finding, told: &Writes) -> String {
        let used = match finding.position {
            Position::Slot(place) => reuse::object_for(site, place),
            _ => None,
        };
        let used = used.filter(|_| finding.class == Class::Multiple);
        let used = used.map_or("", |_| ", an object is used");
        let done = match told {
            Writes::Stop(number) => number.to_string(),
            Writes::Records(records) => {
                let table = |record: &Record| record.table.file().trim_end_matches(".tbl");
                let tables: Vec<&str> = records.iter().map(table).collect();
                tables.join(", ")
            }
        };
        format!("{}{used}: {done}", finding.class.name())
    }

    /// A finding with its repair made by itself.
    fn expect_writes(tables: &Tables, finding: &Finding, policy: u64) -> Writes {
        let position = finding.position;
        let told = writes(tables, position, policy).expect("sound tables");
        expect_reference(tables, position, policy, &told);
        let mut after = tables.clone();
        let run = slices::run(&mut after, policy, 1, position.to_numbers());
        match &told {
            Writes::Records(records) => {
                assert!(run.answer <= STEPS_USED, "{run:?}");
                expect_whole(tables, &after, records);
            }
            Writes::Stop(number) => {
                assert_eq!(run.answer, *number);
                assert_eq!(after, *tables);
            }
        }
        told
    }

    #[test]
    fn the_records_are_those_that_the_step_changes() {
        let mut random = Random::for_test("writes");
        let mut met = Coverage::of("writes", MET.map(str::to_string));
        for _ in 0..5_000 {
            let tables = random_case(&mut random);
            let site = Site::new(&tables);
            let verdicts = Verdicts::new(&tables, &site);
            for position in Position::all(&site) {
                let class = verdicts.at(position).expect("a class");
                let finding = Finding::new(&site, position, class);
                if let Some(repair) = &finding.repair {
                    let told = expect_writes(&tables, &finding, repair.needs.policy());
                    met.met(way_met(&site, &finding, &told));
                }
            }
        }
        met.require(20);
    }

    /// Tables that the library refuses have its number.
    #[test]
    fn a_refusal_is_handed_on() {
        let tables = Tables {
            parents: vec![0],
            ..Tables::default()
        };
        assert_eq!(writes(&tables, Position::Header(0), 0), Err(11));
    }
}
