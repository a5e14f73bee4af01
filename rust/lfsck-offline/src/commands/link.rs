//! `link`: what a linkEA says.

use crate::bar::{Bar, Work};
use crate::hex;
use crate::json::Json;
use crate::link::{Link, Record};
use crate::link_fault::fault;
use crate::outcome::{Failure, Outcome};
use crate::pasted::{self, Form};
use crate::quoted::quoted;
use crate::source::Source;

/// The most bytes of an input. Linux has no attribute of more than 65,536 bytes, which are 131,072
/// digits; and for each record the library looks at the whole linkEA.
const MOST_BYTES: usize = 1 << 18;
/// The least width of a FID.
const FID_WIDTH: usize = 24;

/// Prints a linkEA.
pub fn link(source: &Source, json: bool) -> Result<Outcome, Failure> {
    let input = source.read_all(MOST_BYTES)?;
    let (bytes, form) = pasted::bytes_of(input);
    let bar = Bar::start(Work::Unmeasured("reading the linkEA"));
    let link = Link::read(&bytes, &bar);
    let link = link.map_err(|number| refusal(number, source, &bytes, form))?;
    Ok(Outcome::done(match json {
        true => machine(&link),
        false => text(&link),
    }))
}

/// The line for bytes that the library refused: the number and the first fault.
fn refusal(number: u32, source: &Source, bytes: &[u8], form: Form) -> Failure {
    let reason = fault(bytes).map_or(String::new(), |fault| format!(": {fault}"));
    let more = match form {
        Form::Unknown => "; this is neither raw bytes nor one value of 0x and hexadecimal digits",
        Form::Raw | Form::Digits => "",
    };
    let message = format!("{source}: the linkEA is refused with {number}{reason}{more}");
    Failure::answered(number, message)
}

fn text(link: &Link) -> String {
    let records = match link.count {
        1 => "1 record".to_string(),
        count => format!("{count} records"),
    };
    let mut text = format!(
        "A linkEA of {records} and {} bytes, overflow time {}, padding {}.\n",
        link.total, link.time, link.padding
    );
    if !link.records.is_empty() {
        text += &lines(&link.records);
    }
    text
}

/// The records below each other, the columns as wide as they need be.
fn lines(records: &[Record]) -> String {
    let places = records.iter().map(|record| record.place.to_string());
    let parents = records.iter().map(|record| record.parent.to_string());
    let place = places.map(|place| place.len()).fold(5, usize::max);
    let parent = parents.map(|fid| fid.len()).fold(FID_WIDTH, usize::max);
    let line = |at: &str, fid: &str, name: &str| format!("  {at:>place$}  {fid:<parent$} {name}\n");
    let mut text = line("place", "parent", "name");
    for record in records {
        let (at, fid) = (record.place.to_string(), record.parent.to_string());
        text += &line(&at, &fid, &quoted(record.name));
    }
    text
}

fn machine(link: &Link) -> String {
    let record = |record: &Record| {
        Json::Object(vec![
            ("place", Json::Number(record.place)),
            ("parent", Json::text(record.parent)),
            ("name", Json::maybe(str::from_utf8(record.name).ok())),
            ("name_hex", Json::text(hex::encode(record.name))),
        ])
    };
    Json::Object(vec![
        ("record_count", Json::Number(link.count)),
        ("total_length", Json::Number(link.total)),
        ("overflow_time", Json::Number(link.time)),
        ("padding", Json::Number(link.padding)),
        (
            "records",
            Json::List(link.records.iter().map(record).collect()),
        ),
    ])
    .line()
}
