//! Sentences: counts, lists, lines, and what is wrong with carriers, told with the place of the first byte that is wrong.

use std::io::{self, Write};

use warintaya::{Layer, Refusal};

use crate::failure::Failure;

/// A count and what is counted: 1 frame, 2 frames.
pub fn counted(count: impl std::fmt::Display, what: &str) -> String {
    match count.to_string() {
        one if one == "1" => format!("1 {what}"),
        count => format!("{count} {what}s"),
    }
}

/// Things, as one says it: A, B and C.
pub fn listed(things: &[String]) -> String {
    match things.split_last() {
        Some((last, others)) if !others.is_empty() => format!("{} and {last}", others.join(", ")),
        _ => things.concat(),
    }
}

/// One line, also where a file's name has a line feed or another control character in it.
fn one_line(text: &str) -> String {
    let mut line = String::new();
    for character in text.chars() {
        match character {
            '\n' => line += "\\n",
            _ if character.is_control() => line += &format!("\\x{:02x}", u32::from(character)),
            _ => line.push(character),
        }
    }
    line
}

/// Says a line on standard error, in one piece, so that lines of several commands stay apart. Where standard error is shut there is
/// nobody to tell.
pub fn say(line: &str) {
    let line = one_line(line) + "\n";
    let _ = io::stderr().write_all(line.as_bytes());
}

/// Where a frame stands: its number, the place of its first byte, and the name of the input.
pub struct Frame<'a> {
    pub number: usize,
    pub begin: u64,
    pub input: &'a str,
}

impl Frame<'_> {
    /// The frame behind it, where one has so many carriers.
    pub fn next(&self, carriers: usize) -> Self {
        Frame {
            number: self.number + 1,
            begin: self.begin + carriers as u64,
            input: self.input,
        }
    }

    /// Why its carriers were refused.
    pub fn refused(&self, refusal: Refusal, carriers: &[u8], layer: Layer) -> Failure {
        let large = carriers.iter().position(|&value| value >> layer.v() != 0);
        match (refusal, large) {
            (Refusal::Value, Some(carrier)) => self.large(carrier, carriers[carrier], layer),
            (Refusal::CarriersLength, _) => self.short(carriers.len(), layer),
            _ => refusal.into(),
        }
    }

    /// A value that the modulation doesn't have.
    fn large(&self, carrier: usize, value: u8, layer: Layer) -> Failure {
        let (number, place, input) = (self.number, self.begin + carrier as u64, self.input);
        let (modulation, end) = (layer.modulation_name(), 1 << layer.v());
        let what = format!(
            "carrier {carrier} of frame {number} has the value {value}, and {modulation} has values \
             below {end}, at byte {place} of {input}"
        );
        Failure::at(what, Refusal::Value)
    }

    /// A frame that is cut off where the input ends.
    pub fn short(&self, have: usize, layer: Layer) -> Failure {
        let (number, begin, input) = (self.number, self.begin, self.input);
        let (count, end) = (layer.carriers(), begin + have as u64);
        let have = counted(have, "carrier");
        let what = format!(
            "frame {number}, which begins at byte {begin} of {input}, has {have} and not {count}: the input ends at byte \
             {end}"
        );
        Failure::at(what, Refusal::CarriersLength)
    }
}

#[cfg(test)]
mod tests {
    use super::*;

    #[test]
    fn counts_and_lists() {
        let frames = [0, 1, 2, 11].map(|count| counted(count, "frame"));
        assert_eq!(frames, ["0 frames", "1 frame", "2 frames", "11 frames"]);
        let letters = ["A", "B", "C"].map(String::from);
        let lists = [0, 1, 2, 3].map(|count| listed(&letters[..count]));
        assert_eq!(lists, ["", "A", "A and B", "A, B and C"]);
    }

    #[test]
    fn lines_have_no_control_characters() {
        assert_eq!(one_line("a\nb\x1b[K\u{85}é"), "a\\nb\\x1b[K\\x85é");
    }
}
