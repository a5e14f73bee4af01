//! Both tables as bytes, and the calls of either side with them.

use difftest::tables::describe;
use numbers::call::{END, MOST_WRITES, POSITION, REPORT, ROW, TABLE_PARENTS, WRITES};
use reference::check::{Faults, read_reserve};
use reference::fid::Fid;
use reference::interface;
use reference::tables::{OBJECT_BYTES, PARENT_BYTES};

/// Both tables.
#[derive(Clone, Default, PartialEq)]
pub struct Lent {
    pub parents: Vec<u8>,
    pub objects: Vec<u8>,
}

/// What all calls of a case share.
#[derive(Clone)]
pub struct Terms {
    pub policy: u64,
    pub reserve: Vec<u8>,
}

/// A row of one of the tables: table and row.
pub type Row = [u64; ROW];

/// How a run ended.
pub struct Ended {
    pub answer: u32,
    pub position: [u64; POSITION],
    pub report: [u64; REPORT],
}

type Check = fn(&[u8], &[u8], &[u8], u64, [u64; POSITION]) -> u32;
type Tell = fn(&[u8], &[u8], &mut [u64]) -> u32;
type Run = fn(&mut [u8], &mut [u8], &[u8], u64, u64, &mut [u64], &mut [u64]) -> u32;
type Writes = fn(&[u8], &[u8], &[u8], u64, [u64; POSITION], &mut [u64]) -> u32;

/// The calls that a program needs which stores its tables row by row.
#[derive(Clone, Copy)]
pub struct Side {
    check: Check,
    start: Tell,
    steps: Tell,
    run: Run,
    writes: Writes,
}

/// The library, through C.
pub const LIBRARY: Side = Side {
    check: lfsck_sys::check,
    start: lfsck_sys::start,
    steps: lfsck_sys::steps,
    run: lfsck_sys::run,
    writes: lfsck_sys::step_writes,
};

/// The reference.
pub const REFERENCE: Side = Side {
    check: interface::check,
    start: interface::start,
    steps: interface::steps,
    run: interface::run,
    writes: interface::step_writes,
};

impl Side {
    /// Where a run begins. The tables pass the check.
    pub fn start(&self, tables: &Lent) -> [u64; POSITION] {
        let mut position = [0; POSITION];
        let answer = (self.start)(&tables.parents, &tables.objects, &mut position);
        assert_eq!(answer, 0, "{}", tables.describe());
        position
    }

    /// The steps that the tables count.
    pub fn steps(&self, tables: &Lent) -> u64 {
        let mut steps = [0];
        let answer = (self.steps)(&tables.parents, &tables.objects, &mut steps);
        assert_eq!(answer, 0, "{}", tables.describe());
        steps[0]
    }

    /// Whether a run from a position may be made.
    pub fn check(&self, tables: &Lent, terms: &Terms, position: [u64; POSITION]) -> u32 {
        let Lent { parents, objects } = tables;
        (self.check)(parents, objects, &terms.reserve, terms.policy, position)
    }

    /// A run in place.
    pub fn run(
        &self,
        tables: &mut Lent,
        terms: &Terms,
        position: [u64; POSITION],
        most: u64,
    ) -> Ended {
        let mut ended = Ended {
            answer: 0,
            position,
            report: [0; REPORT],
        };
        ended.answer = (self.run)(
            &mut tables.parents,
            &mut tables.objects,
            &terms.reserve,
            terms.policy,
            most,
            &mut ended.position,
            &mut ended.report,
        );
        ended
    }

    /// The writes of the step at a position, or the answer where it can't be made.
    pub fn writes(
        &self,
        tables: &Lent,
        terms: &Terms,
        position: [u64; POSITION],
    ) -> Result<Vec<Row>, u32> {
        let mut out = [u64::MAX; WRITES];
        let Terms { policy, reserve } = terms;
        let Lent { parents, objects } = tables;
        match (self.writes)(parents, objects, reserve, *policy, position, &mut out) {
            0 => Ok(rows(&out)),
            answer => Err(answer),
        }
    }
}

impl Ended {
    pub fn is_at_end(&self) -> bool {
        self.answer == 0 && self.position == END
    }
}

impl Terms {
    /// The FIDs of the reserve.
    pub fn fids(&self) -> Vec<Fid> {
        read_reserve(&self.reserve, &mut Faults::new())
    }
}

impl Lent {
    /// A row's bytes.
    fn row(&self, [table, row]: Row) -> &[u8] {
        if table == TABLE_PARENTS {
            &self.parents[PARENT_BYTES * row as usize..][..PARENT_BYTES]
        } else {
            &self.objects[OBJECT_BYTES * row as usize..][..OBJECT_BYTES]
        }
    }

    /// Stores one row as other tables have it.
    pub fn store(&mut self, [table, row]: Row, from: &Lent) {
        let bytes = from.row([table, row]);
        if table == TABLE_PARENTS {
            self.parents[PARENT_BYTES * row as usize..][..PARENT_BYTES].copy_from_slice(bytes);
        } else {
            self.objects[OBJECT_BYTES * row as usize..][..OBJECT_BYTES].copy_from_slice(bytes);
        }
    }

    /// Whether a row is the same in other tables.
    pub fn is_same(&self, row: Row, other: &Lent) -> bool {
        self.row(row) == other.row(row)
    }

    /// Becomes as other tables are.
    pub fn copy(&mut self, from: &Lent) {
        self.parents.clone_from(&from.parents);
        self.objects.clone_from(&from.objects);
    }

    /// The tables for a message.
    pub fn describe(&self) -> String {
        describe(&self.parents, &self.objects)
    }
}

/// The rows of a list; the places that it does not use are zero.
fn rows(out: &[u64; WRITES]) -> Vec<Row> {
    let count = out[0] as usize;
    assert!(count <= MOST_WRITES, "{count} writes");
    let (used, unused) = out[1..].split_at(ROW * count);
    assert!(unused.iter().all(|&number| number == 0), "{out:?}");
    used.chunks_exact(ROW).map(|row| [row[0], row[1]]).collect()
}
