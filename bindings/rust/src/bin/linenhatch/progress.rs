//! How far the work is, on standard error.

use std::io::{self, Write};
use std::time::{Duration, Instant};

/// A line that is written anew while a count rises.
pub struct Progress {
    shown: bool,
    what: &'static str,
    count: u64,
    due: Instant,
    written: bool,
}

const PAUSE: Duration = Duration::from_millis(200);

impl Progress {
    /// A count of 0, written from time to time if it is shown at all. Short work writes nothing.
    pub fn new(shown: bool, what: &'static str) -> Progress {
        Progress { shown, what, count: 0, due: Instant::now() + PAUSE, written: false }
    }

    /// One more.
    pub fn step(&mut self) {
        self.count += 1;
        if self.shown && self.count & 63 == 0 && Instant::now() >= self.due {
            self.written = true;
            self.due = Instant::now() + PAUSE;
            let _ = write!(io::stderr(), "\r{}: {}", self.what, self.count);
            let _ = io::stderr().flush();
        }
    }

    /// Makes way for another line: the count, if it was ever written, stays on a line of its own.
    pub fn make_way(&mut self) {
        if self.written {
            self.written = false;
            let _ = writeln!(io::stderr(), "\r{}: {}", self.what, self.count);
        }
    }
}
