//! What the tests of the command with several layers share: stations, their options and their files.

use std::fs;
use std::path::Path;

use crate::common::packets;
use crate::running::path;
use second::random::Random;
use warintaya::{Station, UNUSED};

/// A station of two layers, and of three: as options, and as numbers.
pub const TWO: [&str; 6] = [
    "--mode",
    "1",
    "--layer",
    "A=qpsk,2/3,1",
    "--layer",
    "B=64qam,3/4,2",
];
pub const THREE: [&str; 8] = [
    "--mode",
    "2",
    "--layer",
    "B=16qam,1/2,3",
    "--layer=A=qpsk,7/8,1",
    "--layer",
    "C=64QAM,5/6,1",
    "--quiet",
];

pub fn two() -> Station {
    Station::new(1, [[2, 2, 1], [6, 3, 2], UNUSED]).unwrap()
}

pub fn three() -> Station {
    Station::new(2, [[2, 5, 1], [4, 1, 3], [6, 4, 1]]).unwrap()
}

/// The words of a subcommand.
pub fn words(name: &str, settings: &[&str], more: &[&str]) -> Vec<String> {
    let words = [&[name], settings, more].concat();
    words.into_iter().map(String::from).collect()
}

/// The options that name the files of layers: `-i A=FOLDER/A.NAME` and `-o` likewise.
pub fn files(folder: &Path, letters: &[&str], from: &str, to: &str) -> Vec<String> {
    let mut options = Vec::new();
    for letter in letters {
        for (option, kind) in [("-i", from), ("-o", to)] {
            let file = path(folder, &format!("{letter}.{kind}"));
            options.extend([option.to_string(), format!("{letter}={file}")]);
        }
    }
    options
}

/// Writes a stream for each layer, so many packets each, and gives them back.
pub fn streams(folder: &Path, counts: &[(&str, usize)], seed: u64) -> Vec<Vec<u8>> {
    let mut random = Random::new(seed);
    let written = counts.iter().map(|(letter, count)| {
        let stream = packets(&mut random, *count);
        fs::write(folder.join(format!("{letter}.ts")), &stream).unwrap();
        stream
    });
    written.collect()
}

pub fn read(folder: &Path, name: &str) -> Vec<u8> {
    fs::read(folder.join(name)).unwrap()
}
