//! How a command ends: what it prints and its exit status.

use std::fmt::Display;

use crate::json::Json;
use crate::line_fault::LineFault;

/// Exit statuses.
#[derive(Clone, Copy, Debug, PartialEq, Eq)]
pub enum Status {
    /// Done.
    Done = 0,
    /// The steps were used up before the end.
    StepsLeft = 1,
    /// The input was refused.
    Refused = 2,
    /// The reserve, a table's unused rows or the room for a linkEA ran out.
    RanOut = 3,
    /// There is something to mend, and the exit status was to tell.
    ToMend = 4,
    /// The command line is not one of ours.
    Usage = 64,
    /// A file could not be read or written, or the case is in use.
    Files = 74,
}

/// What a command prints on standard output, and its status.
#[derive(Debug)]
pub struct Outcome {
    /// The text, whole lines.
    pub text: String,
    /// The exit status.
    pub status: Status,
    /// A line for standard error.
    pub note: Option<&'static str>,
    /// What was done for good, whether or not the text can be printed.
    pub lasting: Option<&'static str>,
}

impl Outcome {
    /// A command that did what it was asked.
    pub fn done(text: String) -> Outcome {
        Outcome::ended(text, Status::Done)
    }

    /// A command that ended with this status.
    pub fn ended(text: String, status: Status) -> Outcome {
        Outcome {
            text,
            status,
            note: None,
            lasting: None,
        }
    }
}

/// Why a command ended early: one line for standard error.
#[derive(Debug)]
pub struct Failure {
    /// The line.
    pub message: String,
    /// The exit status.
    pub status: Status,
    /// The library's number, where it refused the input.
    pub answer: Option<u32>,
    /// The line of a file that is at fault.
    pub fault: Option<Box<LineFault>>,
}

impl Failure {
    fn new(message: String, status: Status) -> Failure {
        Failure {
            message,
            status,
            answer: None,
            fault: None,
        }
    }

    /// A command line that cannot be followed.
    pub fn usage(message: impl Display) -> Failure {
        let message = format!("{message} (see lfsck-offline --help)");
        Failure::new(message, Status::Usage)
    }

    /// Input that is refused.
    pub fn refused(message: impl Display) -> Failure {
        Failure::new(message.to_string(), Status::Refused)
    }

    /// Input that the library refused with this number.
    pub fn answered(answer: u32, message: impl Display) -> Failure {
        Failure {
            answer: Some(answer),
            ..Failure::refused(message)
        }
    }

    /// A line of a file that is refused.
    pub fn of_line(fault: LineFault) -> Failure {
        Failure {
            answer: fault.number,
            fault: Some(Box::new(fault.clone())),
            ..Failure::refused(fault.message())
        }
    }

    /// Trouble with a file.
    pub fn files(message: impl Display) -> Failure {
        Failure::new(message.to_string(), Status::Files)
    }

    /// For machines.
    pub fn json(&self) -> Json {
        let mut members = vec![
            ("error", Json::text(&self.message)),
            ("status", Json::Number(self.status as u64)),
            ("answer", Json::maybe_number(self.answer)),
        ];
        members.extend(self.fault.as_ref().map(|fault| ("fault", fault.json())));
        Json::Object(members)
    }
}
