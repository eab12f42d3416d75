//! Says on standard error how far a long run is, where that is a terminal, what is left out on the way, and what was done.

use std::io::{self, Write};
use std::time::{Duration, Instant};

use crate::far::{Far, SoFar};
use crate::options::Options;
use crate::system::{self, Standard};
use crate::told::say;

/// How long nothing is said at first, and then between two lines.
const PAUSE: Duration = Duration::from_millis(500);

/// The characters of a line, where a terminal does not tell how wide it is.
const WIDTH: usize = 79;

/// Goes to the beginning of a terminal's line, and makes it empty.
const CLEAR: &str = "\r\x1b[K";

pub struct Progress {
    command: &'static str,
    shown: bool,
    /// The bytes that there are in all, if that is known.
    whole: Option<u64>,
    begun: Instant,
    last: Instant,
    said: bool,
}

/// The characters that a line may have: the last column of a terminal stays empty, so that nothing wraps.
fn room() -> usize {
    let columns = system::columns(Standard::Error);
    columns.map_or(WIDTH, |columns| columns - 1)
}

impl Progress {
    pub fn new(command: &'static str, whole: Option<u64>, quiet: bool) -> Progress {
        Progress {
            command,
            shown: !quiet && system::terminal(Standard::Error),
            whole,
            begun: Instant::now(),
            last: Instant::now(),
            said: false,
        }
    }

    /// Says it in place of what was said before, unless that was a moment ago.
    pub fn say(&mut self, frames: usize, bytes: u64, so_far: SoFar) {
        if !self.shown || self.last.elapsed() < PAUSE {
            return;
        }
        let far = Far {
            frames: frames as u64,
            bytes,
            whole: self.whole,
            so_far,
            gone: self.begun.elapsed(),
        };
        let line = far.words(self.command, room());
        let _ = io::stderr().write_all(format!("{CLEAR}{line}").as_bytes());
        self.last = Instant::now();
        self.said = true;
    }
}

impl Drop for Progress {
    /// The line is left empty.
    fn drop(&mut self) {
        if self.said {
            let _ = write!(io::stderr(), "{CLEAR}");
        }
    }
}

/// Tells at once, in a line of its own, what a run goes on in spite of. It is told also where a run is to be quiet.
pub fn tell(command: &str, line: &str) {
    if system::terminal(Standard::Error) {
        let _ = write!(io::stderr(), "{CLEAR}");
    }
    say(&format!("{command}: {line}"));
}

/// The last lines of a run: what was done, unless it is to be quiet. They go to standard error, since standard output may hold a
/// stream.
pub fn summary(command: &str, options: &Options, lines: &[String]) {
    if options.has("--quiet") {
        return;
    }
    for line in lines {
        say(&format!("{command}: {line}"));
    }
}
