//! How far a long command has come: one line on standard error, if a person looks at it.

use std::io::{IsTerminal, Write};
use std::time::{Duration, Instant};

/// The line is written again after so long.
const PAUSE: Duration = Duration::from_millis(100);

pub struct Progress {
    /// Standard error is a terminal, and the answers do not scroll by on it.
    shown: bool,
    written: Instant,
}

impl Progress {
    pub fn new() -> Progress {
        let shown = std::io::stderr().is_terminal() && !std::io::stdout().is_terminal();
        Progress { shown, written: Instant::now() }
    }

    pub fn at(&mut self, done: usize, all: usize) {
        if self.shown && self.written.elapsed() >= PAUSE {
            self.written = Instant::now();
            let _ = write!(std::io::stderr(), "\rjudged {done} of {all}");
        }
    }

    /// Takes the line away, before something else is said.
    pub fn clear(&self) {
        if self.shown {
            let _ = write!(std::io::stderr(), "\r\x1b[K");
        }
    }
}
