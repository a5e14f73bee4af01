//! The commands.

mod check;
mod classes;
mod convert;
mod intake;
mod link;
mod log;
mod names;
mod run;
mod sample;
mod sample_names;
mod show;
mod undo;

use crate::args::{Call, Command};
use crate::bar::{Bar, Work};
use crate::json::Json;
use crate::outcome::{Failure, Outcome};

/// Which version this is.
const VERSION: &str = env!("CARGO_PKG_VERSION");

/// Does what is asked. The bar is gone before anything is printed.
pub fn execute(call: &Call) -> Result<Outcome, Failure> {
    let (directory, json) = (&call.directory, call.json);
    let bar = match call.command {
        // Its input may be typed, and a bar would stand in between.
        Command::Link(_) => Bar::none(),
        Command::Intake(ref options) if options.are_typed() => Bar::none(),
        _ => Bar::start(Work::Unmeasured("reading the tables")),
    };
    match &call.command {
        Command::Help(topic) => Ok(Outcome::done(topic.text().to_string())),
        Command::Version => Ok(Outcome::done(version(json))),
        Command::Sample => sample::sample(directory, json),
        Command::Check => check::check(directory, json, &bar),
        Command::Classes(options) => classes::classes(directory, options, json, &bar),
        Command::Run(options) => run::run(directory, *options, json, &bar),
        Command::Show(options) => show::show(directory, *options, json, &bar),
        Command::Log(None) => log::log(directory, json),
        Command::Log(Some(fid)) => log::story(directory, *fid, json),
        Command::Undo => undo::undo(directory, json),
        Command::Convert => convert::convert(directory, json, &bar),
        Command::Names(options) => names::names(directory, *options, json, &bar),
        Command::Link(source) => link::link(source, json),
        Command::Intake(options) => intake::intake(directory, options, json, &bar),
    }
}

fn version(json: bool) -> String {
    match json {
        true => Json::Object(vec![("version", Json::text(VERSION))]).line(),
        false => format!("lfsck-offline {VERSION}\n"),
    }
}
