//! Says on standard error how far a long run is, where that is a terminal.

use std::fs;
use std::time::{Duration, Instant};

/// How often something is said.
const PAUSE: Duration = Duration::from_millis(500);

/// Whether standard error is a terminal.
fn terminal() -> bool {
    let there = fs::read_link("/proc/self/fd/2").unwrap_or_default();
    there.starts_with("/dev/pts") || there.to_string_lossy().starts_with("/dev/tty")
}

pub struct Progress {
    terminal: bool,
    said: Option<Instant>,
}

impl Progress {
    pub fn new() -> Self {
        Progress {
            terminal: terminal(),
            said: None,
        }
    }

    /// Says it in place of what was said before, unless that was a moment ago.
    pub fn say(&mut self, what: &str) {
        let now = Instant::now();
        let just = self.said.map_or(false, |said| now - said < PAUSE);
        if self.terminal && !just {
            eprint!("\r\x1b[Kdoors: {what}");
            self.said = Some(now);
        }
    }
}

impl Drop for Progress {
    /// The line is left empty.
    fn drop(&mut self) {
        if self.said.is_some() {
            eprint!("\r\x1b[K");
        }
    }
}
