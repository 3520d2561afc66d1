//! How far a long work is, on a terminal.

use std::io::{self, IsTerminal, Stderr, Write};
use std::time::{Duration, Instant};

/// What takes less time than this shows no progress.
const AFTER: Duration = Duration::from_secs(1);

/// Progress on standard error, if that is a terminal.
pub struct Progress<W = Stderr> {
    started: Instant,
    total: usize,
    what: &'static str,
    /// The terminal, if there is one.
    terminal: Option<W>,
    is_shown: bool,
}

impl Progress {
    /// Progress of so many things, `files` or such.
    pub fn new(total: usize, what: &'static str) -> Progress {
        Progress::on(Some(io::stderr()).filter(Stderr::is_terminal), total, what)
    }
}

impl<W: Write> Progress<W> {
    /// The same on any terminal, or on none.
    fn on(terminal: Option<W>, total: usize, what: &'static str) -> Progress<W> {
        Progress { started: Instant::now(), total, what, terminal, is_shown: false }
    }

    /// Shows how many are done, once that takes long.
    pub fn show(&mut self, done: usize) {
        if self.started.elapsed() < AFTER {
            return;
        }
        if let Some(terminal) = &mut self.terminal {
            let _ = write!(terminal, "\r{done} of {} {}", self.total, self.what);
            self.is_shown = true;
        }
    }

    /// Clears the line for other text.
    pub fn clear(&mut self) {
        if let (Some(terminal), true) = (&mut self.terminal, self.is_shown) {
            let _ = write!(terminal, "\r\x1b[K");
            self.is_shown = false;
        }
    }

    /// The time since the beginning.
    pub fn elapsed(&self) -> Duration {
        self.started.elapsed()
    }
}

#[cfg(test)]
mod tests {
    use super::*;

    #[test]
    fn progress_is_shown_after_a_second() {
        let mut text = Vec::new();
        let mut progress = Progress::on(Some(&mut text), 9, "files");
        progress.show(1);
        progress.clear();
        progress.started = Instant::now().checked_sub(AFTER).expect("an earlier time");
        progress.show(2);
        progress.show(3);
        progress.clear();
        progress.clear();
        assert_eq!(String::from_utf8_lossy(&text), "\r2 of 9 files\r3 of 9 files\r\x1b[K");
    }

    #[test]
    fn without_a_terminal_nothing_is_shown() {
        let mut progress = Progress::on(None::<Vec<u8>>, 9, "files");
        progress.started = Instant::now().checked_sub(AFTER).expect("an earlier time");
        progress.show(2);
        progress.clear();
        assert!(!progress.is_shown);
    }
}
