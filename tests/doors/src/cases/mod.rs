//! What is tried, the small before the large.

mod back;
mod back_refused;
mod code;
mod link;
mod names;
mod refused;
mod replace;
mod replace_refused;
pub mod rounds;
mod starts;
mod stations;
mod words;

use second::random::Random;

use crate::check::{Check, Checked};
use crate::progress::Progress;

/// The 45 settings of a layer of so many segments.
fn settings(segments: u8) -> Vec<[u8; 4]> {
    let mut all = Vec::new();
    for mode in 1..=3 {
        for v in [2, 4, 6] {
            for rate in 1..=5 {
                all.push([mode, v, rate, segments]);
            }
        }
    }
    all
}

/// One of the faults at random, and any of those behind it: the first is the one that is answered.
fn some<'a, T>(random: &mut Random, faults: &'a [T]) -> Vec<&'a T> {
    let first = random.below(faults.len() as u64) as usize;
    let mut chosen = vec![&faults[first]];
    let behind = faults[first + 1..].iter();
    chosen.extend(behind.filter(|_| random.below(2) == 0));
    chosen
}

/// Cases, and the doors that they are for, or what else they are about.
type Part = (&'static [&'static str], fn(&mut Check) -> Checked);

const PARTS: [Part; 10] = [
    (&["start", "receive_start", "sizes"], starts::run),
    (&["names"], names::run),
    (&["disperse_interleave"], words::run),
    (&["code"], refused::run),
    (&["code"], code::run),
    (&["replace"], replace_refused::run),
    (&["replace"], replace::run),
    (&["back"], back_refused::run),
    (&["back"], back::run),
    (&["stations"], stations::run),
];

/// Everything but the rounds, up to the first difference.
pub fn run(check: &mut Check) -> Checked {
    let mut progress = Progress::new();
    for (number, (doors, part)) in PARTS.iter().enumerate() {
        let all = PARTS.len();
        progress.say(&format!(
            "part {} of {all}, {}",
            number + 1,
            doors.join(", ")
        ));
        part(check)?;
    }
    Ok(())
}

/// What is for one door alone, up to the first difference.
pub fn run_for(check: &mut Check, door: &str) -> Checked {
    let mut parts = PARTS.iter().filter(|(doors, _)| doors.contains(&door));
    let (_, first) = parts.next().ok_or(format!("no cases for {door}"))?;
    first(check)?;
    parts.try_for_each(|(_, part)| part(check))
}
