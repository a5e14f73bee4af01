//! The command `lfsck-offline`: checks, classes and repairs the tables of a site, makes them from
//! attribute dumps, mends the names in them, and prints linkEAs.
//!
//! Everything that decides or changes is the verified library's. This tool reads and writes
//! files and prints.

mod answers;
mod args;
mod bar;
mod case;
mod change;
mod changes;
mod class;
mod classing;
mod clock;
mod columns;
mod commands;
mod digest;
mod disk;
mod dump;
mod dump_fault;
mod faults;
mod fid;
mod filter;
mod finding;
mod foretell;
mod help;
mod hex;
mod history;
mod hook;
mod intake;
mod journal;
mod json;
mod line_fault;
mod link;
mod link_fault;
mod lock;
mod looks;
mod mended;
mod moments;
mod name_changes;
mod name_faults;
mod name_finding;
mod name_rows;
mod names;
mod narrow;
mod outcome;
mod pace;
mod pasted;
mod permissions;
mod plain;
mod position;
mod quoted;
mod reader;
mod reserve;
mod reuse;
mod rows;
mod save;
mod saved;
mod site;
mod slices;
mod source;
mod story;
mod tables;
mod values;
mod verdict;
mod whence;
mod why;
mod writes;

use std::ffi::OsString;
use std::io::{self, Write};
use std::process::ExitCode;

use outcome::{Failure, Outcome, Status};
use quoted::on_one_line;

fn main() -> ExitCode {
    let words: Vec<OsString> = std::env::args_os().skip(1).collect();
    let json = args::Call::wants_json(words.iter().cloned());
    let outcome = args::Call::parse(words).and_then(|call| commands::execute(&call));
    let status = match outcome {
        Ok(outcome) => print(&outcome),
        Err(failure) => fail(&failure, json),
    };
    ExitCode::from(status as u8)
}

/// Says why a command ended early; to machines on standard output too.
fn fail(failure: &Failure, json: bool) -> Status {
    if json {
        // Where it cannot be written, the line below says it.
        let _ = write_out(&failure.json().line());
    }
    tell(&failure.message);
    failure.status
}

/// A line on standard error.
fn tell(message: &str) {
    let _ = writeln!(io::stderr(), "lfsck-offline: {}", on_one_line(message));
}

fn write_out(text: &str) -> io::Result<()> {
    let mut out = io::stdout().lock();
    out.write_all(text.as_bytes()).and_then(|()| out.flush())
}

/// Prints what a command has to say. A reader that has heard enough is no trouble.
fn print(outcome: &Outcome) -> Status {
    let printed = write_out(&outcome.text);
    outcome.note.into_iter().for_each(tell);
    match printed {
        Err(error) if error.kind() != io::ErrorKind::BrokenPipe => {
            let lasting = outcome.lasting.map(|done| format!("; {done}"));
            let lasting = lasting.unwrap_or_default();
            tell(&format!("standard output: {error}{lasting}"));
            Status::Files
        }
        _ => outcome.status,
    }
}
