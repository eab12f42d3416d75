//! The command `warintaya`: codes transport streams into carriers, receives them, and replaces packets late, over files and pipes.
//!
//! It ends with status 0 when its work is done, 1 when the call is understood and was refused or failed, 2 when the words of the
//! command line don't make a call, and 128 and a signal's number when that ended it. Whatever goes wrong is told in one line.

#![deny(unsafe_code)]

mod ahead;
mod back;
mod code;
mod counts;
mod demo;
mod ending;
mod failure;
mod far;
mod files;
mod form;
mod frames;
mod guard;
mod held;
mod help;
mod json;
mod layer_files;
mod live;
mod lock;
mod new_file;
mod options;
mod packets;
mod padding;
mod places;
mod progress;
mod replace;
mod sent;
mod settings;
mod signals;
mod state_file;
mod streams;
#[allow(unsafe_code)]
mod system;
mod told;

use std::ffi::{OsStr, OsString};
use std::io::{self, Write};
use std::process::ExitCode;

use failure::{Failure, Outcome};
use options::{Kind, Options};
use system::Standard;
use told::say;

/// A subcommand: its name, its options, its help, and what it does.
struct Subcommand {
    name: &'static str,
    options: &'static [(&'static str, Kind)],
    help: &'static str,
    /// Whether it reads and writes streams, which may take long: then a signal ends it in order.
    streams: bool,
    run: fn(&Options) -> Outcome,
}

const SUBCOMMANDS: [Subcommand; 5] = [
    Subcommand {
        name: "code",
        options: code::OPTIONS,
        help: help::CODE,
        streams: true,
        run: code::run,
    },
    Subcommand {
        name: "back",
        options: back::OPTIONS,
        help: help::BACK,
        streams: true,
        run: back::run,
    },
    Subcommand {
        name: "replace",
        options: replace::OPTIONS,
        help: help::REPLACE,
        streams: true,
        run: replace::run,
    },
    Subcommand {
        name: "frames",
        options: frames::OPTIONS,
        help: help::FRAMES,
        streams: false,
        run: frames::run,
    },
    Subcommand {
        name: "demo",
        options: demo::OPTIONS,
        help: help::DEMO,
        streams: false,
        run: demo::run,
    },
];

/// Prints a text on standard output.
fn print(text: &str) -> Outcome {
    if system::closed(Standard::Output) {
        return Err(Failure::Refused("standard output is closed".to_string()));
    }
    let written = io::stdout().write_all(text.as_bytes());
    written.map_err(|why| Failure::Refused(format!("standard output can't be written: {why}")))
}

impl Subcommand {
    /// The one that has a name.
    fn named(name: &OsStr) -> Outcome<&'static Subcommand> {
        let found = SUBCOMMANDS.iter().find(|one| name == one.name);
        let name = name.to_string_lossy();
        found.ok_or_else(|| Failure::Usage(format!("there is no subcommand '{name}'")))
    }

    /// Does what the words behind its name say.
    fn run(&self, words: &[OsString]) -> Outcome {
        if words.iter().any(|word| word == "--help" || word == "-h") {
            return print(self.help);
        }
        let options = Options::read(words, self.options)?;
        if self.streams {
            signals::listen();
        }
        (self.run)(&options)
    }
}

/// Prints the help of the whole, or of the subcommand that is named.
fn help(words: &[OsString]) -> Outcome {
    match words {
        [] => print(help::WHOLE),
        [name] => print(Subcommand::named(name)?.help),
        _ => Err(Failure::Usage("help is of one subcommand".to_string())),
    }
}

/// Does what the words behind the command's name say. With a failure comes the subcommand that it is from.
fn run(words: &[OsString]) -> Result<(), (&'static str, Failure)> {
    let (first, rest) = match words.split_first() {
        Some((first, rest)) => (first, rest),
        None => return Err(("", Failure::Usage("a subcommand is missing".to_string()))),
    };
    let done = match &*first.to_string_lossy() {
        "--help" | "-h" => print(help::WHOLE),
        "help" => help(rest),
        "--version" | "-V" => print(concat!("warintaya ", env!("CARGO_PKG_VERSION"), "\n")),
        _ => {
            let one = Subcommand::named(first).map_err(|failure| ("", failure))?;
            return one.run(rest).map_err(|failure| (one.name, failure));
        }
    };
    done.map_err(|failure| ("", failure))
}

fn main() -> ExitCode {
    let words: Vec<OsString> = std::env::args_os().skip(1).collect();
    let (name, failure) = match run(&words) {
        Err((name, failure)) => (name, failure),
        Ok(()) => return ExitCode::SUCCESS,
    };
    let command = format!("warintaya {name}");
    let (line, status) = failure.told(command.trim_end());
    say(&line);
    ExitCode::from(status)
}
