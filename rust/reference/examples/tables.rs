//! Writes the tables that a dump gives: `tables DUMP OWNERS DIRECTORY`. Each has as many rows as the
//! dump fills.

use std::error::Error;
use std::fs;
use std::path::Path;

use reference::intake::{Entry, Reading, read};
use reference::tables::{OBJECT_BYTES, PARENT_BYTES};

fn main() -> Result<(), Box<dyn Error>> {
    let words: Vec<String> = std::env::args().skip(1).collect();
    let [dump, owners, directory] = &words[..] else {
        return Err("tables DUMP OWNERS DIRECTORY".into());
    };
    let (dump, owners) = (fs::read(dump)?, fs::read(owners)?);
    let reading = Reading::of(&dump, &owners);
    let entries = reading.lines.iter().filter_map(|line| line.closed.as_ref());
    let files = entries.clone().filter(|it| matches!(it, Entry::Parent(_)));
    let (files, all) = (files.count(), entries.count());
    let mut parents = vec![0; PARENT_BYTES * files];
    let mut objects = vec![0; OBJECT_BYTES * (all - files)];
    read(&dump, &owners, &mut parents, &mut objects)
        .map_err(|fault| format!("line {}: {}", fault.line, fault.answer))?;
    let directory = Path::new(directory);
    fs::write(directory.join("parents.tbl"), parents)?;
    fs::write(directory.join("objects.tbl"), objects)?;
    Ok(())
}
