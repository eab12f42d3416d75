//! The independent second program: it writes the files that the run cases of the crates are held to, answers as the proved
//! programs should, and makes inputs for them.
//!
//! `second expected DIR` writes the files of the run cases below DIR.
//! `second frames` answers standard input as the programs `frames` and `cases_loop` do; so do `coding` and `receiving`, and
//! `words` for `cases_reed_solomon`, `calls` for `cases_words`, `records` for `cases_coding`, `received` for
//! `cases_best_message`.
//! `second lines SEED COUNT` writes so many random lines for `frames`, the same for the same seed; `words`, `calls`, `records` and
//! `received` do the same for their programs. `second coding SEED COUNT` and `second receiving SEED COUNT` write a text of so many
//! frames, of the layer that SEED modulo 45 names, and `second noise SEED COUNT` so many bytes.
//! `second endings coding DIR` and `second endings receiving DIR` write texts that end in every way, a file each, into DIR.

use std::fs;
use std::io::{self, Read, Write};
use std::path::Path;
use std::process::ExitCode;

use second::random::Random;
use second::texts::{self, Program};
use second::{best, coding, endings, frames, frames_coded, programs, sums, words};

/// The files of the run cases: path below the repository's root, and what stands in it.
fn expected() -> Vec<(String, Vec<u8>)> {
    let inputs: [(&str, Vec<u8>, Answers); 9] = [
        ("frames", frames::sample(), frames::answers),
        ("cases_loop", frames::random_text(7, 400), frames::answers),
        ("cases_reed_solomon", words::sample(), words::answers),
        ("cases_words", coding::random(4, 60), coding::answers),
        (
            "cases_coding",
            frames_coded::random(5, 60),
            frames_coded::answers,
        ),
        ("cases_best_message", best::random(6, 60), best::answers),
        ("coding", texts::sample(Program::Coding), programs::coding),
        (
            "receiving",
            texts::sample(Program::Receiving),
            programs::receiving,
        ),
        ("cases_sums", sums::input(), sums::answers),
    ];
    // `cases_frames` makes its own input
    let mut files = vec![(
        "crates/cases_frames/stdout".to_string(),
        frames::answers(&frames::around()),
    )];
    for (program, input, answers) in inputs {
        files.push((format!("crates/{program}/stdout"), answers(&input)));
        files.push((format!("crates/{program}/stdin"), input));
    }
    files
}

/// Writes files below a folder.
fn write(root: &Path, files: Vec<(String, Vec<u8>)>) -> io::Result<()> {
    for (path, bytes) in files {
        let file = root.join(path);
        if let Some(folder) = file.parent() {
            fs::create_dir_all(folder)?;
        }
        fs::write(file, bytes)?;
    }
    Ok(())
}

/// What should be printed for an input.
type Answers = fn(&[u8]) -> Vec<u8>;

/// The answers of the program that is called this here.
fn answers(name: &str) -> Option<Answers> {
    Some(match name {
        "frames" => frames::answers,
        "coding" => programs::coding,
        "receiving" => programs::receiving,
        "words" => words::answers,
        "calls" => coding::answers,
        "records" => frames_coded::answers,
        "received" => best::answers,
        _ => return None,
    })
}

/// An input by seed.
fn input(name: &str, seed: u64, count: u64) -> Option<Vec<u8>> {
    Some(match name {
        "lines" => frames::random_text(seed, count),
        "coding" => texts::random(Program::Coding, seed, count),
        "receiving" => texts::random(Program::Receiving, seed, count),
        "words" => words::random(seed, count),
        "calls" => coding::random(seed, count),
        "records" => frames_coded::random(seed, count),
        "received" => best::random(seed, count),
        "noise" => Random::new(seed).bytes(count as usize),
        _ => return None,
    })
}

fn filter(answers: Answers) -> io::Result<()> {
    let mut text = Vec::new();
    io::stdin().read_to_end(&mut text)?;
    io::stdout().write_all(&answers(&text))
}

/// Does what the words say; nothing where they say nothing that can be done.
fn run(words: &[&str]) -> Option<io::Result<()>> {
    match words {
        ["expected", root] => Some(write(Path::new(root), expected())),
        ["endings", "coding", folder] => {
            Some(write(Path::new(folder), endings::all(Program::Coding)))
        }
        ["endings", "receiving", folder] => {
            Some(write(Path::new(folder), endings::all(Program::Receiving)))
        }
        [name] => Some(filter(answers(name)?)),
        [name, seed, count] => {
            let input = input(name, seed.parse().ok()?, count.parse().ok()?)?;
            Some(io::stdout().write_all(&input))
        }
        _ => None,
    }
}

fn main() -> ExitCode {
    let arguments: Vec<String> = std::env::args().skip(1).collect();
    let words: Vec<&str> = arguments.iter().map(String::as_str).collect();
    match run(&words) {
        Some(Ok(())) => ExitCode::SUCCESS,
        Some(Err(why)) => {
            eprintln!("second: {why}");
            ExitCode::FAILURE
        }
        None => {
            eprintln!(
                "usage: second expected DIR | second endings (coding|receiving) DIR\n       \
                 second (frames|coding|receiving|words|calls|records|received)\n       \
                 second (lines|coding|receiving|words|calls|records|received|noise) SEED COUNT"
            );
            ExitCode::from(2)
        }
    }
}
