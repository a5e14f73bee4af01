//! What the reference says of the tables of a case.

use reference::check::read_tables;
use reference::interface;
use reference::site::Site;

use crate::tool::{Case, Files};

/// The outcome of a run of the reference.
#[derive(Debug)]
pub struct Run {
    /// The answer.
    pub answer: u32,
    /// Stage, row and part.
    pub position: [u64; 3],
    /// The steps done and the repairs by class.
    pub report: [u64; 10],
    /// The parent table.
    pub parents: Vec<u8>,
    /// The object table.
    pub objects: Vec<u8>,
}

/// A run from the start over the tables of a case.
pub fn run(files: &Files, policy: u64, most: u64) -> Run {
    let mut start = [0; 3];
    let (parents, objects) = (&files["parents.tbl"], &files["objects.tbl"]);
    assert_eq!(interface::start(parents, objects, &mut start), 0);
    run_from(files, start, policy, most)
}

/// A run from a position.
pub fn run_from(files: &Files, mut position: [u64; 3], policy: u64, most: u64) -> Run {
    let mut parents = files["parents.tbl"].clone();
    let mut objects = files["objects.tbl"].clone();
    let mut report = [0; 10];
    let answer = interface::run(
        &mut parents,
        &mut objects,
        &files["reserve.tbl"],
        policy,
        most,
        &mut position,
        &mut report,
    );
    Run {
        answer,
        position,
        report,
        parents,
        objects,
    }
}

impl Run {
    /// The tables of a case are those of this run.
    pub fn expect_in(&self, case: &Case) {
        assert!(case.read("parents.tbl") == self.parents, "parents.tbl");
        assert!(case.read("objects.tbl") == self.objects, "objects.tbl");
    }
}

/// The site that the tables of a case make.
pub fn site(case: &Case) -> Site {
    let (tables, faults) = read_tables(&case.read("parents.tbl"), &case.read("objects.tbl"));
    assert!(faults.is_empty());
    Site::new(tables)
}
