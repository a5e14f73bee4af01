//! A progress bar on a terminal, drawn by a thread of its own: the library's calls may take long,
//! and say nothing meanwhile.

use std::io::{self, IsTerminal, Write};
use std::sync::{Arc, Condvar, Mutex, MutexGuard, PoisonError};
use std::thread::{self, JoinHandle};
use std::time::{Duration, Instant};

/// The cells of the bar.
const CELLS: u64 = 40;
/// Work that is done sooner needs no bar.
const PATIENCE: Duration = Duration::from_millis(500);
/// The time between two pictures.
const PICTURE: Duration = Duration::from_millis(250);

/// A bar, if standard error is a terminal; dropped, it clears its line.
pub struct Bar {
    drawer: Option<(Arc<Shared>, JoinHandle<()>)>,
}

/// What the drawing thread is told.
struct Shared {
    state: Mutex<State>,
    woken: Condvar,
}

struct State {
    work: Work,
    done: u64,
    over: bool,
}

/// What is being done.
#[derive(Clone, Copy, Debug, PartialEq, Eq)]
pub enum Work {
    /// How much of it is done cannot be told.
    Unmeasured(&'static str),
    /// So many of these.
    Counted(&'static str, u64),
}

impl Bar {
    /// A bar for work that begins now; none where no thread is to be had.
    pub fn start(work: Work) -> Bar {
        let terminal = io::stderr().is_terminal();
        Bar {
            drawer: terminal.then(|| Bar::drawer(work)).flatten(),
        }
    }

    /// No bar.
    pub fn none() -> Bar {
        Bar { drawer: None }
    }

    fn drawer(work: Work) -> Option<(Arc<Shared>, JoinHandle<()>)> {
        let shared = Arc::new(Shared {
            state: Mutex::new(State {
                work,
                done: 0,
                over: false,
            }),
            woken: Condvar::new(),
        });
        let drawn = Arc::clone(&shared);
        let draw = move || drawn.draw(Instant::now());
        let thread = thread::Builder::new().spawn(draw).ok()?;
        Some((shared, thread))
    }

    /// Other work begins.
    pub fn turn_to(&self, work: Work) {
        self.tell(|state| {
            state.work = work;
            state.done = 0;
        });
    }

    /// So much of the work is done.
    pub fn show(&self, done: u64) {
        self.tell(|state| state.done = done);
    }

    fn tell(&self, change: impl FnOnce(&mut State)) {
        if let Some((shared, _)) = &self.drawer {
            change(&mut shared.lock());
        }
    }
}

impl Drop for Bar {
    fn drop(&mut self) {
        if let Some((shared, thread)) = self.drawer.take() {
            shared.lock().over = true;
            shared.woken.notify_one();
            let _ = thread.join();
        }
    }
}

impl Shared {
    fn lock(&self) -> MutexGuard<'_, State> {
        self.state.lock().unwrap_or_else(PoisonError::into_inner)
    }

    /// Draws until the work is over, then clears the line.
    fn draw(&self, started: Instant) {
        let mut widest = 0;
        let mut pause = PATIENCE;
        let mut state = self.lock();
        loop {
            let waited = self
                .woken
                .wait_timeout_while(state, pause, |state| !state.over);
            state = waited.unwrap_or_else(PoisonError::into_inner).0;
            if state.over {
                break;
            }
            let line = line(state.work, state.done, started.elapsed());
            widest = widest.max(line.len());
            let _ = write!(io::stderr(), "\r{line:<widest$}");
            pause = PICTURE;
        }
        if widest > 0 {
            let _ = write!(io::stderr(), "\r{:widest$}\r", "");
        }
    }
}

fn line(work: Work, done: u64, elapsed: Duration) -> String {
    let seconds = elapsed.as_secs();
    match work {
        Work::Unmeasured(what) => format!("[{}] {what}, {seconds} s", wave(elapsed)),
        Work::Counted(what, total) => {
            let digits = total.to_string().len();
            let percent = (100 * done).checked_div(total).unwrap_or(100).min(100);
            format!(
                "[{}] {percent:>3}%  {done:>digits$} of {total} {what}, {seconds} s",
                filled(done, total)
            )
        }
    }
}

/// The cells, as many of them filled as is done.
fn filled(done: u64, total: u64) -> String {
    let filled = (CELLS * done)
        .checked_div(total)
        .unwrap_or(CELLS)
        .min(CELLS) as usize;
    format!(
        "{}{}",
        "#".repeat(filled),
        "-".repeat(CELLS as usize - filled)
    )
}

/// The cells with a mark that moves by one with each picture.
fn wave(elapsed: Duration) -> String {
    let at = (elapsed.as_millis() / PICTURE.as_millis()) as usize % CELLS as usize;
    format!("{}#{}", "-".repeat(at), "-".repeat(CELLS as usize - 1 - at))
}

#[cfg(test)]
mod tests {
    use super::*;

    #[test]
    fn the_bar_fills() {
        let cells = |filled| format!("[{}{}]", "#".repeat(filled), "-".repeat(40 - filled));
        let line = |done, total| line(Work::Counted("steps", total), done, PATIENCE * 25);
        assert_eq!(
            line(0, 200),
            format!("{}   0%    0 of 200 steps, 12 s", cells(0))
        );
        assert_eq!(
            line(50, 200),
            format!("{}  25%   50 of 200 steps, 12 s", cells(10))
        );
        assert_eq!(
            line(200, 200),
            format!("{} 100%  200 of 200 steps, 12 s", cells(40))
        );
        assert_eq!(
            line(0, 0),
            format!("{} 100%  0 of 0 steps, 12 s", cells(40))
        );
    }

    #[test]
    fn work_that_cannot_be_measured_shows_its_time() {
        let work = Work::Unmeasured("checking the tables");
        for pictures in 0..100 {
            let line = line(work, 0, PICTURE * pictures);
            let at = pictures as usize % 40;
            assert_eq!(line.find('#'), Some(1 + at));
            let rest = format!("] checking the tables, {} s", pictures / 4);
            assert!(
                line.ends_with(&rest) && line.len() == 41 + rest.len(),
                "{line}"
            );
        }
    }
}
