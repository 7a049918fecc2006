//! How far long work is, on standard error where that is a terminal.

use std::io::{self, IsTerminal, Write};
use std::time::{Duration, Instant};

/// Work that takes no longer shows nothing; the line changes no more often than this.
const PAUSE: Duration = Duration::from_millis(500);

/// A line that is written over, and taken away at the end.
pub struct Progress {
    what: &'static str,
    /// 0 where it is not known.
    whole: u64,
    on_terminal: bool,
    shown: Instant,
    is_shown: bool,
}

impl Progress {
    /// Work on so many bytes begins.
    pub fn new(what: &'static str, whole: u64) -> Self {
        Self { what, whole, on_terminal: io::stderr().is_terminal(), shown: Instant::now(), is_shown: false }
    }

    /// Nothing is shown.
    pub fn hidden() -> Self {
        Self { what: "", whole: 0, on_terminal: false, shown: Instant::now(), is_shown: false }
    }

    /// So many bytes are done.
    pub fn at(&mut self, done: u64) {
        if self.on_terminal && self.shown.elapsed() >= PAUSE {
            self.shown = Instant::now();
            self.is_shown = true;
            // A terminal that takes no line is no reason to stop.
            let _ = write!(io::stderr(), "\r{}\x1b[K", line(self.what, done, self.whole));
        }
    }
}

impl Drop for Progress {
    fn drop(&mut self) {
        if self.is_shown {
            let _ = write!(io::stderr(), "\r\x1b[K");
        }
    }
}

fn line(what: &str, done: u64, whole: u64) -> String {
    let megabytes = done / 1_000_000;
    match (u128::from(done) * 100).checked_div(u128::from(whole)) {
        Some(percent) => format!("{what}: {megabytes} MB, {}%", percent.min(100)),
        None => format!("{what}: {megabytes} MB"),
    }
}

#[cfg(test)]
mod tests {
    use super::line;

    #[test]
    fn says_how_far() {
        assert_eq!(line("reading", 1_500_000, 3_000_000), "reading: 1 MB, 50%");
        assert_eq!(line("reading", 4_000_000, 3_000_000), "reading: 4 MB, 100%");
        assert_eq!(line("reading", 1_500_000, 0), "reading: 1 MB");
        assert_eq!(line("printing", u64::MAX, u64::MAX), "printing: 18446744073709 MB, 100%");
    }
}
