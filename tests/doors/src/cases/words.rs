//! Dispersing and byte-interleaving one word.

use second::frame::WORD;

use crate::cases::settings;
use crate::check::{Check, Checked};
use crate::expected;
use crate::records::{self, Kind, Record};
use crate::states;

/// Lengths that no word has.
const LENGTHS: [usize; 5] = [0, 1, WORD - 1, WORD + 1, 2 * WORD];

/// A random state of these numbers in a record.
fn record(check: &mut Check, numbers: [u8; 4]) -> Record {
    let state = states::random(&mut check.random, numbers);
    check.record(Kind::Coding, &state)
}

/// A random word.
fn word(check: &mut Check) -> Vec<u8> {
    check.random.bytes(WORD)
}

/// Every place of the longest frame, and the first and last place of the others.
fn every_place(check: &mut Check) -> Checked {
    let numbers = [3, 6, 5, 13];
    let state = states::random(&mut check.random, numbers);
    for place in 0..expected::sizes(numbers).0 {
        check.case(format!("settings {numbers:?}, place {place}"));
        let (record, word) = (check.record(Kind::Coding, &state), word(check));
        let moved = check.disperse_interleave(&record, place, &word, WORD)?;
        check.meant(moved.answer, 0)?;
    }
    for numbers in settings(1).into_iter().chain(settings(13)) {
        let record = record(check, numbers);
        let packets = expected::sizes(numbers).0;
        for (place, number) in [(0, 0), (packets - 1, 0), (packets, 9)] {
            check.case(format!("settings {numbers:?}, place {place}"));
            let word = word(check);
            let moved = check.disperse_interleave(&record, place, &word, WORD)?;
            check.meant(moved.answer, number)?;
        }
    }
    Ok(())
}

/// Places that a number of fewer bits would take for one in the frame.
fn far_places(check: &mut Check) -> Checked {
    let record = check.record(Kind::Coding, &states::fresh([1, 2, 1, 1]));
    let far = [
        12,
        256,
        32_767,
        65_536,
        1 << 31,
        1 << 32,
        1 << 63,
        usize::MAX,
    ];
    for place in far {
        check.case(format!("place {place}"));
        let word = word(check);
        let moved = check.disperse_interleave(&record, place, &word, WORD)?;
        check.meant(moved.answer, 9)?;
    }
    Ok(())
}

/// The words of a frame's beginning in a row through one layer, from a fresh state and from others.
fn words_in_a_row(check: &mut Check) -> Checked {
    for numbers in [[1, 2, 1, 1], [2, 4, 3, 13], [3, 6, 5, 2]] {
        let random = states::random(&mut check.random, numbers);
        for state in [states::fresh(numbers), random, states::largest(numbers)] {
            let mut record = check.record(Kind::Coding, &state);
            for turn in 0..30 {
                let place = turn % expected::sizes(numbers).0;
                check.case(format!(
                    "settings {numbers:?}, place {place}, word {turn} in a row"
                ));
                let word = word(check);
                let moved = check.disperse_interleave(&record, place, &word, WORD)?;
                check.meant(moved.answer, 0)?;
                record = moved.record;
            }
        }
    }
    Ok(())
}

/// A call that is refused with this number.
fn refused(
    check: &mut Check,
    record: &Record,
    place: usize,
    lengths: (usize, usize),
    number: u8,
) -> Checked {
    let word = check.random.bytes(lengths.0);
    let moved = check.disperse_interleave(record, place, &word, lengths.1)?;
    check.meant(moved.answer, number)
}

/// A place in a frame of so many words, or one that no word has: the first of them, any, or one that fewer bits would take for a
/// word's.
fn place(check: &mut Check, words: usize, none: bool) -> usize {
    let within = check.random.below(words as u64) as usize;
    match check.random.below(3) {
        _ if !none => within,
        0 => words,
        1 => words + check.random.below(1 << 40) as usize,
        _ => within + (1 << 32),
    }
}

/// Words at random places, one after the other through one layer.
pub fn random_words(check: &mut Check, numbers: [u8; 4], count: usize) -> Checked {
    let mut record = record(check, numbers);
    for turn in 0..count {
        let place = place(check, expected::sizes(numbers).0, false);
        check.case(format!(
            "settings {numbers:?}, place {place}, word {turn} in a row"
        ));
        let word = word(check);
        let moved = check.disperse_interleave(&record, place, &word, WORD)?;
        check.meant(moved.answer, 0)?;
        record = moved.record;
    }
    Ok(())
}

/// A random choice of the faults: a record that isn't good, a layer that is unused, a word of another length, and a place that no
/// word has.
pub fn random_faults(check: &mut Check, numbers: [u8; 4]) -> Checked {
    let choice = 1 + check.random.below(15);
    let [seven, thirteen, five, nine] = [1, 2, 4, 8].map(|fault| choice & fault != 0);
    let mut record = record(check, numbers);
    if seven {
        record = records::any_bad(&mut check.random, Kind::Coding, numbers).record;
    }
    if thirteen {
        record.name_unused();
    }
    let mut length = |wrong: bool| match check.random.below(4) {
        0 if wrong => WORD + 1,
        1 if wrong => WORD - 1,
        _ if wrong => check.random.below(WORD as u64) as usize,
        _ => WORD,
    };
    let lengths = (length(five), length(false));
    let place = place(check, expected::sizes(numbers).0, nine);
    check.case(format!(
        "settings {numbers:?}, faults 7 {seven}, 13 {thirteen}, 5 {five}, 9 {nine}"
    ));
    let faults = [(seven, 7), (thirteen, 13), (five, 5), (nine, 9)];
    let first = faults.into_iter().find(|(present, _)| *present);
    let (_, number) = first.expect("one fault at least");
    refused(check, &record, place, lengths, number)
}

/// Records that are not good, layers that are unused, words of other lengths, and all of them with a place that no word has.
fn refusals(check: &mut Check) -> Checked {
    for numbers in [[1, 2, 1, 1], [2, 4, 4, 7], [3, 6, 5, 13]] {
        let packets = expected::sizes(numbers).0;
        for bad in records::bad(&mut check.random, Kind::Coding, numbers) {
            for (place, lengths) in [
                (0, (WORD, WORD)),
                (0, (WORD - 1, WORD)),
                (packets, (WORD, 0)),
            ] {
                check.case(format!(
                    "settings {numbers:?}, {}, place {place}, lengths {lengths:?}",
                    bad.why
                ));
                refused(check, &bad.record, place, lengths, 7)?;
            }
        }
        let good = record(check, numbers);
        let mut unused = good.clone();
        unused.name_unused();
        for length in LENGTHS {
            for lengths in [(length, WORD), (WORD, length), (length, length)] {
                for place in [0, packets, usize::MAX] {
                    check.case(format!(
                        "settings {numbers:?}, place {place}, lengths {lengths:?}"
                    ));
                    refused(check, &good, place, lengths, 5)?;
                    refused(check, &unused, place, lengths, 13)?;
                }
            }
        }
    }
    Ok(())
}

pub fn run(check: &mut Check) -> Checked {
    far_places(check)?;
    refusals(check)?;
    words_in_a_row(check)?;
    every_place(check)
}
