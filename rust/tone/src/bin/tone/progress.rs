//! One line on standard error that says how far long work has come.

use std::fmt;
use std::io::{stderr, IsTerminal, Write};
use std::time::{Duration, Instant};

/// The line is not renewed more often than this.
const PAUSE: Duration = Duration::from_millis(100);

/// The line; nothing where standard error is not a terminal. It is taken away
/// when this is dropped.
pub struct Progress {
    terminal: bool,
    shown: Option<Instant>,
}

impl Progress {
    /// No line yet.
    pub fn new() -> Progress {
        Progress {
            terminal: stderr().is_terminal(),
            shown: None,
        }
    }

    /// Shows a text, if the last one has stood for a moment.
    pub fn show(&mut self, text: fmt::Arguments<'_>) {
        if !self.terminal || self.shown.is_some_and(|at| at.elapsed() < PAUSE) {
            return;
        }
        self.shown = Some(Instant::now());
        // A line that cannot be written is no reason to end the work.
        let _ = write!(stderr(), "\r\x1b[Ktone: {text}");
    }
}

impl Drop for Progress {
    fn drop(&mut self) {
        if self.shown.is_some() {
            let _ = write!(stderr(), "\r\x1b[K");
        }
    }
}
