//! Signals that ask a run to end: it does so in order, its temporary files and its lock removed.

use std::os::raw::c_int;
use std::sync::atomic::{AtomicBool, AtomicI32, AtomicUsize, Ordering};

use crate::failure::{Failure, Outcome};
use crate::system;

/// A signal that asks a run to end.
#[derive(Clone, Copy, Debug, PartialEq)]
pub enum Signal {
    Hangup = 1,
    Interrupt = 2,
    Terminate = 15,
}

const ALL: [Signal; 3] = [Signal::Hangup, Signal::Interrupt, Signal::Terminate];

/// The first that came, how many came in all, and whether a frame that is being written is written to its end.
static FIRST: AtomicI32 = AtomicI32::new(0);
static COUNT: AtomicUsize = AtomicUsize::new(0);
static WHOLE_FRAMES: AtomicBool = AtomicBool::new(false);

impl Signal {
    pub fn name(self) -> &'static str {
        match self {
            Signal::Hangup => "SIGHUP",
            Signal::Interrupt => "SIGINT",
            Signal::Terminate => "SIGTERM",
        }
    }

    /// The status of a run that it ended, as shells have it.
    pub fn status(self) -> u8 {
        128 + self as u8
    }
}

/// Notes a signal. This is called by its handler, and so it stores numbers and does nothing else.
pub fn came(number: c_int) {
    let _ = FIRST.compare_exchange(0, number, Ordering::SeqCst, Ordering::SeqCst);
    COUNT.fetch_add(1, Ordering::SeqCst);
}

/// From now on signals are noted, and end nothing by themselves.
pub fn listen() {
    system::listen(&ALL.map(|signal| signal as c_int));
}

/// From now on a frame that is being written is written to its end, unless a second signal comes.
pub fn keep_frames_whole() {
    WHOLE_FRAMES.store(true, Ordering::SeqCst);
}

/// The signal that came, if one has.
pub fn first() -> Option<Signal> {
    let number = FIRST.load(Ordering::SeqCst);
    ALL.into_iter().find(|signal| *signal as c_int == number)
}

/// Whether the run has to end at once, also within a frame.
pub fn at_once() -> bool {
    match COUNT.load(Ordering::SeqCst) {
        0 => false,
        1 => !WHOLE_FRAMES.load(Ordering::SeqCst),
        _ => true,
    }
}

/// Nothing new is begun or waited for once a signal has come.
pub fn check() -> Outcome {
    match first() {
        Some(signal) => Err(Failure::Ended(signal, String::new())),
        None => Ok(()),
    }
}

/// The same for what may go on until it has to end at once.
pub fn check_at_once() -> Outcome {
    match at_once() {
        true => check(),
        false => Ok(()),
    }
}
