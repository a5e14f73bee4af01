//! Where a test cuts the file operations of a save off. A build without the feature `faults`
//! has nothing of it.
//!
//! With `LFSCK_OFFLINE_FAULT=abort:N` the process dies after the N-th operation, with `fail:N`
//! the N-th fails, and with `wait:N` it waits for a line on standard input after each from the
//! N-th on. Half of a file is an operation too.

#[cfg(feature = "faults")]
use std::cell::Cell;
use std::io;

/// The variable with the fault that a test asks for.
#[cfg(feature = "faults")]
const FAULT: &str = "LFSCK_OFFLINE_FAULT";

#[cfg(feature = "faults")]
#[derive(Clone, Copy)]
enum Fault {
    AbortAfter(u64),
    FailAt(u64),
    WaitFrom(u64),
}

/// The fault, and the operations so far.
#[cfg(feature = "faults")]
pub struct Hook {
    fault: Option<Fault>,
    done: Cell<u64>,
}

/// No fault.
#[cfg(not(feature = "faults"))]
pub struct Hook;

#[cfg(feature = "faults")]
impl Hook {
    /// The fault that is asked for.
    pub fn new() -> Hook {
        Hook {
            fault: Hook::asked(),
            done: Cell::new(0),
        }
    }

    fn asked() -> Option<Fault> {
        let text = std::env::var(FAULT).ok()?;
        let (kind, number) = text.split_once(':')?;
        let number = number.parse().ok()?;
        match kind {
            "abort" => Some(Fault::AbortAfter(number)),
            "fail" => Some(Fault::FailAt(number)),
            "wait" => Some(Fault::WaitFrom(number)),
            _ => None,
        }
    }

    /// Counts an operation, and lets it fail.
    pub fn before(&self) -> io::Result<()> {
        let number = self.done.get() + 1;
        self.done.set(number);
        match self.fault {
            Some(Fault::FailAt(at)) if at == number => {
                Err(io::Error::other("made to fail by a test"))
            }
            _ => Ok(()),
        }
    }

    /// Dies or waits after an operation.
    pub fn after(&self, what: &str, name: &str) {
        match self.fault {
            Some(Fault::AbortAfter(at)) if at == self.done.get() => {
                eprintln!("aborted after: {what} {name}");
                std::process::abort();
            }
            Some(Fault::WaitFrom(at)) if at <= self.done.get() => {
                eprintln!("waiting after: {what} {name}");
                let _ = io::stdin().read_line(&mut String::new());
            }
            _ => (),
        }
    }
}

#[cfg(not(feature = "faults"))]
impl Hook {
    /// Nothing is asked for.
    pub fn new() -> Hook {
        Hook
    }

    /// Every operation is let be.
    pub fn before(&self) -> io::Result<()> {
        Ok(())
    }

    /// Nothing happens.
    pub fn after(&self, _what: &str, _name: &str) {}
}
