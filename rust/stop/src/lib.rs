//! Whether somebody has asked this process to stop: SIGINT or SIGTERM.
//!
//! The handler does two things, both of which a handler may do: it writes one atomic number,
//! and it puts the system's own handling back, so that the same signal a second time ends the
//! process at once.

use std::sync::atomic::{AtomicI32, Ordering};

#[cfg(not(target_os = "linux"))]
compile_error!("the numbers below are those of Linux; name those of this system");

/// A signal that asks a process to stop.
#[derive(Clone, Copy, Debug, PartialEq, Eq)]
pub enum Signal {
    /// Somebody at the terminal.
    Interrupt,
    /// Another process.
    Terminate,
}

/// What `signal` takes and gives for a handler, with two values that stand for none.
type Handler = usize;
const SYSTEM: Handler = 0;
const IGNORE: Handler = 1;

unsafe extern "C" {
    /// The C library's: sets what is done about a signal, and answers what was done before.
    fn signal(number: i32, handler: Handler) -> Handler;
}

/// The signal that came; 0 while none has.
static CAME: AtomicI32 = AtomicI32::new(0);

impl Signal {
    const BOTH: [Signal; 2] = [Signal::Interrupt, Signal::Terminate];

    fn number(self) -> i32 {
        match self {
            Signal::Interrupt => 2,
            Signal::Terminate => 15,
        }
    }

    /// The signal as people call it.
    pub fn name(self) -> &'static str {
        match self {
            Signal::Interrupt => "SIGINT",
            Signal::Terminate => "SIGTERM",
        }
    }
}

extern "C" fn note(number: i32) {
    CAME.store(number, Ordering::Relaxed);
    set(number, SYSTEM);
}

/// Sets what is done about a signal, and answers what was done before.
fn set(number: i32, handler: Handler) -> Handler {
    // SAFETY: `signal` is the C library's, declared as it is there. The handler is one of its
    // two fixed values or `note`, a function of the right form that is always there and does
    // only what a handler may do.
    unsafe { signal(number, handler) }
}

/// From now on a first signal is noted. One that is ignored, as by `nohup`, stays ignored.
pub fn listen() {
    let handler: extern "C" fn(i32) = note;
    for signal in Signal::BOTH {
        if set(signal.number(), handler as Handler) == IGNORE {
            set(signal.number(), IGNORE);
        }
    }
}

/// The signal that has come, if one has.
pub fn asked() -> Option<Signal> {
    let came = CAME.load(Ordering::Relaxed);
    Signal::BOTH
        .into_iter()
        .find(|signal| signal.number() == came)
}
