//! Calls the doors of the compiled library and holds each to the second program: every number that is returned, and every byte of
//! every area that is lent, also of those that may not alter, and the bytes around them.
//!
//! `doors` tries the library: cases of every kind, and rounds of random ones. It ends with counts, or with a status other than 0
//! and one line at the first difference, or where it has compared less than it should.
//! `doors for back` tries the cases of one door alone.
//! `doors long SEED NUMBER` tries so many rounds of random cases, the same for the same seed.

mod cases;
mod check;
mod doors;
mod expected;
mod lent;
mod progress;
mod receiving_states;
mod records;
mod states;

use std::process::ExitCode;

use check::{Check, Checked};

const SEED: u64 = 7;

/// The rounds of a whole run.
const ROUNDS: u64 = 108;

/// The library, before anything is tried.
fn library(seed: u64) -> Check {
    Check::new(doors::compiled(), seed)
}

/// Every door: a whole run.
fn whole() -> Checked<Vec<String>> {
    let mut check = library(SEED);
    cases::run(&mut check)?;
    cases::rounds::run(&mut check, ROUNDS)?;
    check.counts.enough()?;
    Ok(check.counts.lines())
}

/// One door alone.
fn of_door(door: &str) -> Checked<Vec<String>> {
    let mut check = library(SEED);
    cases::run_for(&mut check, door)?;
    Ok(check.counts.lines())
}

/// Rounds of random cases.
fn long(seed: &str, number: &str) -> Checked<Vec<String>> {
    let (seed, number) = match (seed.parse(), number.parse()) {
        (Ok(seed), Ok(number @ 1..)) => (seed, number),
        _ => return Err("SEED and NUMBER are whole numbers, NUMBER from 1 on".to_string()),
    };
    let mut check = library(seed);
    cases::rounds::run(&mut check, number)?;
    Ok(check.counts.lines())
}

fn main() -> ExitCode {
    let arguments: Vec<String> = std::env::args().skip(1).collect();
    let outcome = match arguments.iter().map(String::as_str).collect::<Vec<_>>()[..] {
        [] => whole(),
        ["for", door] => of_door(door),
        ["long", seed, number] => long(seed, number),
        _ => Err("usage: doors [for DOOR | long SEED NUMBER]".to_string()),
    };
    match outcome {
        Ok(lines) => {
            lines.iter().for_each(|line| println!("doors: {line}"));
            ExitCode::SUCCESS
        }
        Err(difference) => {
            eprintln!("doors: {difference}");
            ExitCode::FAILURE
        }
    }
}
