//! Why a run ends before its work is done.

use std::path::Path;

use warintaya::{LayerName, NotReplaced, Refusal};

use crate::signals::Signal;

/// Each holds one line of plain words.
#[derive(Debug, PartialEq)]
pub enum Failure {
    /// The words of the command line don't make a call: status 2.
    Usage(String),
    /// The call is understood, and refused, or it failed: status 1.
    Refused(String),
    /// A signal ended it, and where: status 128 and the signal's number.
    Ended(Signal, String),
}

pub type Outcome<T = ()> = Result<T, Failure>;

impl Failure {
    /// Words that say where, and the refusal's number behind them.
    pub fn at(what: impl std::fmt::Display, refusal: Refusal) -> Failure {
        Failure::Refused(format!("{what} (refusal {})", refusal.number()))
    }

    /// A layer that is named and not used, or that no layer is.
    pub fn unused(layer: Option<LayerName>) -> Failure {
        let what = match layer {
            Some(name) => format!("layer {name} is not used"),
            None => "no layer is used".to_string(),
        };
        Failure::at(what, Refusal::LayerUnused)
    }

    /// A file that can't be read or written.
    pub fn file(path: &Path, what: &str, why: impl std::fmt::Display) -> Failure {
        Failure::Refused(format!("{} can't be {what}: {why}", path.display()))
    }

    /// The same failure, with more words behind.
    pub fn and(self, more: &str) -> Failure {
        match self {
            Failure::Usage(what) => Failure::Usage(format!("{what}; {more}")),
            Failure::Refused(what) => Failure::Refused(format!("{what}; {more}")),
            Failure::Ended(signal, what) => Failure::Ended(signal, format!("{what}; {more}")),
        }
    }

    /// Its line, for a command of this name, and the command's status.
    pub fn told(&self, command: &str) -> (String, u8) {
        match self {
            Failure::Usage(what) => (format!("{command}: {what}; see {command} --help"), 2),
            Failure::Refused(what) => (format!("{command}: {what}"), 1),
            Failure::Ended(signal, what) => {
                let line = format!("{command}: ended by {}{what}", signal.name());
                (line, signal.status())
            }
        }
    }
}

impl From<NotReplaced> for Failure {
    /// Its own words.
    fn from(why: NotReplaced) -> Failure {
        Failure::Refused(why.to_string())
    }
}

impl From<Refusal> for Failure {
    /// The refusal's own words.
    fn from(refusal: Refusal) -> Failure {
        Failure::Refused(refusal.to_string())
    }
}
