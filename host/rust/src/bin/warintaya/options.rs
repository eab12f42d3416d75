//! Options by name.

use std::ffi::{OsStr, OsString};
use std::path::Path;

use warintaya::Refusal;

use crate::failure::{Failure, Outcome};

/// Whether a value stands behind an option's name, and whether it may be given more than once.
#[derive(Clone, Copy, PartialEq)]
pub enum Kind {
    Flag,
    Value,
    Values,
}

/// The options that were given.
#[derive(Debug, PartialEq)]
pub struct Options {
    given: Vec<(&'static str, OsString)>,
}

impl Options {
    /// Reads words as `--name value`, `--name=value` or `--name`. A name may be given as often as its kind has it, and nothing
    /// else may stand there.
    pub fn read(words: &[OsString], known: &[(&'static str, Kind)]) -> Outcome<Options> {
        let mut given: Vec<(&'static str, OsString)> = Vec::new();
        let mut words = words.iter();
        while let Some(word) = words.next() {
            let (written, mut value) = cut(word);
            let found = known.iter().find(|(name, _)| *name == written);
            let (name, kind) = match found {
                Some(&(name, kind)) => (name, kind),
                None => return Err(Failure::Usage(format!("'{written}' is not known"))),
            };
            if kind != Kind::Flag && value.is_none() {
                value = words.next().cloned();
            }
            let twice = given.iter().any(|(other, _)| *other == name);
            match (kind, &value) {
                (Kind::Value | Kind::Values, None) => {
                    return Err(Failure::Usage(format!("{name} lacks its value")));
                }
                (Kind::Flag, Some(_)) => {
                    return Err(Failure::Usage(format!("{name} takes no value")));
                }
                (Kind::Flag | Kind::Value, _) if twice => {
                    return Err(Failure::Usage(format!("{name} is given twice")));
                }
                (_, Some(value)) if value.is_empty() => {
                    return Err(Failure::Usage(format!("{name} has an empty value")));
                }
                _ => given.push((name, value.unwrap_or_default())),
            }
        }
        Ok(Options { given })
    }

    /// The values of an option, in the order in which they were given.
    pub fn values<'a>(&'a self, name: &'a str) -> impl Iterator<Item = &'a OsStr> {
        let given = self.given.iter().filter(move |(given, _)| *given == name);
        given.map(|(_, value)| value.as_os_str())
    }

    /// The value of an option, the first one if there are several.
    pub fn value(&self, name: &str) -> Option<&OsStr> {
        let found = self.given.iter().find(|(given, _)| *given == name);
        found.map(|(_, value)| value.as_os_str())
    }

    /// The value of an option as a path.
    pub fn path(&self, name: &str) -> Option<&Path> {
        self.value(name).map(Path::new)
    }

    /// The path behind an option that has to be given.
    pub fn needed_path(&self, name: &str) -> Outcome<&Path> {
        let path = self.path(name);
        path.ok_or_else(|| Failure::Usage(format!("{name} FILE is missing")))
    }

    /// The value of an option as the number of a packet or a frame.
    pub fn number(&self, name: &str) -> Outcome<Option<usize>> {
        let value = self.value(name).map(OsStr::to_string_lossy);
        let number =
            value.map(|text| whole_number(name, &text)?.ok_or_else(|| too_large(name, &text)));
        number.transpose()
    }

    /// The value of an option as a count of at least one; one that is larger than any count is the largest.
    pub fn count(&self, name: &str) -> Outcome<Option<usize>> {
        let value = self.value(name).map(OsStr::to_string_lossy);
        let count = value.map(|text| match whole_number(name, &text)? {
            Some(0) => Err(Failure::Usage(format!("{name} is at least 1, not {text}"))),
            count => Ok(count.unwrap_or(usize::MAX)),
        });
        count.transpose()
    }

    /// Whether an option is given.
    pub fn has(&self, name: &str) -> bool {
        self.value(name).is_some()
    }
}

/// Whether a text is a whole number.
pub fn is_whole_number(text: &str) -> bool {
    !text.is_empty() && text.bytes().all(|byte| byte.is_ascii_digit())
}

/// The whole number that was written for an option; nothing, if the machine has none that is so large.
fn whole_number(option: &str, text: &str) -> Outcome<Option<usize>> {
    match is_whole_number(text) {
        true => Ok(text.parse().ok()),
        false => Err(Failure::Usage(format!(
            "{option} {text} is no whole number"
        ))),
    }
}

/// A number that no packet or frame has.
fn too_large(option: &str, text: &str) -> Failure {
    Failure::at(format!("{option} {text} is too large"), Refusal::Number)
}

/// The name of a word and, behind a sign of equality, its value.
fn cut(word: &OsStr) -> (String, Option<OsString>) {
    match word.to_str().and_then(|text| text.split_once('=')) {
        Some((name, value)) if name.starts_with("--") => (name.to_string(), Some(value.into())),
        _ => (word.to_string_lossy().into_owned(), None),
    }
}

#[cfg(test)]
mod tests {
    use super::*;

    const KNOWN: &[(&str, Kind)] = &[
        ("--mode", Kind::Value),
        ("-i", Kind::Values),
        ("--fill", Kind::Flag),
    ];

    fn read(words: &[&str]) -> Outcome<Options> {
        let words: Vec<OsString> = words.iter().map(OsString::from).collect();
        Options::read(&words, KNOWN)
    }

    #[test]
    fn names_values_and_flags() {
        let options = read(&["--mode", "3", "-i", "a=b", "--fill"]).unwrap();
        assert_eq!(options.number("--mode"), Ok(Some(3)));
        assert_eq!(options.path("-i"), Some(Path::new("a=b")));
        assert!(options.has("--fill"));
        let options = read(&["-i", "A=a", "--fill", "-i", "B=b"]).unwrap();
        assert!(options.values("-i").eq(["A=a", "B=b"]));
        assert_eq!(options.values("--mode").count(), 0);
        assert_eq!(read(&["--mode=3"]).unwrap().number("--mode"), Ok(Some(3)));
        assert_eq!(read(&[]).unwrap().number("--mode"), Ok(None));
    }

    #[test]
    fn what_can_not_be_read() {
        for words in [
            &["--mood", "3"][..],
            &["--mode"],
            &["--mode", ""],
            &["--mode="],
            &["--mode", "3", "--mode", "3"],
            &["--fill", "--fill"],
            &["-i", "A=a", "-i"],
            &["--fill=yes"],
            &["stream.ts"],
        ] {
            assert!(matches!(read(words), Err(Failure::Usage(_))), "{words:?}");
        }
        for value in ["x", "-1", "+1", "1.5"] {
            let options = read(&["--mode", value]).unwrap();
            let numbers = [options.number("--mode"), options.count("--mode")];
            let usage = |number: &Outcome<_>| matches!(number, Err(Failure::Usage(_)));
            assert!(numbers.iter().all(usage), "{value}");
        }
    }

    /// A number may be larger than the machine has any, and a count too.
    #[test]
    fn large_numbers() {
        let options = read(&["--mode", "99999999999999999999999"]).unwrap();
        let refused = options.number("--mode");
        assert!(matches!(refused, Err(Failure::Refused(what)) if what.ends_with("(refusal 9)")));
        assert_eq!(options.count("--mode"), Ok(Some(usize::MAX)));
        let none = read(&["--mode", "0"]).unwrap();
        assert_eq!(none.number("--mode"), Ok(Some(0)));
        assert!(matches!(none.count("--mode"), Err(Failure::Usage(_))));
    }
}
