//! A line on standard error that says how far a run is, for the commands.

use std::cell::Cell;
use std::io::{self, IsTerminal, Write};
use std::time::{Duration, Instant};

/// How often the line is made anew.
const PAUSE: Duration = Duration::from_millis(100);

/// On a terminal the line is shown and made anew; elsewhere there is none.
pub struct Progress {
    on: bool,
    shown: Cell<Option<Instant>>,
}

impl Progress {
    pub fn new(wanted: bool) -> Self {
        Self {
            on: wanted && io::stderr().is_terminal(),
            shown: Cell::new(None),
        }
    }

    /// Shows a line, where the last one has stood long enough.
    pub fn show(&self, line: impl FnOnce() -> String) {
        let is_due = self.shown.get().is_none_or(|at| at.elapsed() >= PAUSE);
        if self.on && is_due {
            self.step(&line());
        }
    }

    /// Shows the line of a step that may take long, at once.
    pub fn step(&self, line: &str) {
        if self.on {
            self.shown.set(Some(Instant::now()));
            put(line);
        }
    }

    /// Takes the line away, so that something else can be written there.
    pub fn clear(&self) {
        if self.shown.take().is_some() {
            put("");
        }
    }
}

/// A line in the place of the last: back to its start, and the rest of it wiped.
fn put(line: &str) {
    let mut out = io::stderr().lock();
    // A line that can't be shown is no reason to stop.
    let _ = write!(out, "\r\x1b[K{line}").and_then(|()| out.flush());
}
