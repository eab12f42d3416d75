//! Receiving states of one layer: good ones, and every kind that is not.

use second::layer::Numbers;
use second::random::Random;
use second::receiving::{held_after, State, HELD, STATE};
use second::state::{LINES, MEMORY};

use crate::states::BadState;

/// Where the parts of a receiving state's area begin.
const TAKEN: usize = 4;
const BRANCHES: usize = 5;
const ENTRIES: usize = BRANCHES + MEMORY;
pub const REGISTER: usize = ENTRIES + LINES;
pub const HELD_BITS: usize = REGISTER + 1;

/// How many of the 360 entries are used: what each line waits to make up 120.
fn used(numbers: [u8; 4]) -> usize {
    let delays = Numbers::from(numbers).line_lengths();
    delays.iter().map(|delay| 120 - delay).sum()
}

/// As a receiver is started.
pub fn fresh(numbers: [u8; 4]) -> Vec<u8> {
    State::start(Numbers::from(numbers)).1.bytes()
}

/// A state after a frame, of these parts, with zeros where nothing is used.
fn after_a_frame(numbers: [u8; 4], mut part: impl FnMut(u64) -> u8) -> Vec<u8> {
    let mut area = numbers.to_vec();
    area.push(1);
    area.extend((0..MEMORY).map(|_| part(256)));
    area.extend((0..used(numbers)).map(|_| part(2)));
    area.resize(REGISTER, 0);
    area.push(part(64));
    area.extend((0..held_after(Numbers::from(numbers))).map(|_| part(2)));
    area.resize(STATE, 0);
    area
}

/// A good state after a frame with every part random.
pub fn random(random: &mut Random, numbers: [u8; 4]) -> Vec<u8> {
    after_a_frame(numbers, |end| random.below(end) as u8)
}

/// The good state in which every part is as large as it may be.
pub fn largest(numbers: [u8; 4]) -> Vec<u8> {
    after_a_frame(numbers, |end| (end - 1) as u8)
}

/// The places of a state after a frame that have a range, and values outside it.
fn out_of_range(numbers: [u8; 4]) -> Vec<(&'static str, usize, Vec<u8>)> {
    let (used, held) = (used(numbers), held_after(Numbers::from(numbers)));
    let mut all = vec![
        ("mode", 0, vec![0, 4, 5, 128, 255]),
        ("v", 1, vec![0, 1, 3, 5, 7, 8, 130, 255]),
        ("rate", 2, vec![0, 6, 7, 129, 255]),
        ("segments", 3, vec![0, 14, 15, 129, 255]),
        ("frames taken", TAKEN, vec![2, 3, 128, 255]),
        ("register", REGISTER, vec![64, 65, 127, 128, 255]),
    ];
    for entry in [0, 1, used / 2, used - 1] {
        all.push(("entry", ENTRIES + entry, vec![2, 3, 128, 255]));
    }
    // 64QAM uses all the entries
    if used < LINES {
        for entry in [used, (used + LINES) / 2, LINES - 1] {
            all.push(("unused entry", ENTRIES + entry, vec![1, 2, 255]));
        }
    }
    for bit in [0, 1, held / 2, held - 1] {
        all.push(("held bit", HELD_BITS + bit, vec![2, 3, 128, 255]));
    }
    for bit in [held, held + 1, (held + HELD) / 2, HELD - 1] {
        all.push(("unused held bit", HELD_BITS + bit, vec![1, 2, 255]));
    }
    all
}

/// States before the first frame that hold more than the settings, by one byte.
fn before_a_frame(numbers: [u8; 4]) -> Vec<BadState> {
    let mut all = Vec::new();
    for place in [
        BRANCHES,
        BRANCHES + MEMORY / 2,
        ENTRIES - 1,
        ENTRIES,
        ENTRIES + used(numbers) - 1,
        REGISTER - 1,
        REGISTER,
        HELD_BITS,
        HELD_BITS + 1000,
        STATE - 1,
    ] {
        for value in [1, 255] {
            let mut area = fresh(numbers);
            area[place] = value;
            let why = format!("no frame taken, and {value} at byte {place}");
            all.push(BadState::new(why, area));
        }
    }
    all
}

/// Every kind of state that isn't good and isn't all zero: by one number alone, by settings that use fewer entries or bits, and
/// by a frame that was not taken.
pub fn bad(random: &mut Random, numbers: [u8; 4]) -> Vec<BadState> {
    let good = self::random(random, numbers);
    let mut all = Vec::new();
    for (what, place, values) in out_of_range(numbers) {
        for value in values {
            let mut area = good.clone();
            area[place] = value;
            all.push(BadState::new(
                format!("{what} {value} at byte {place}"),
                area,
            ));
        }
    }
    let mut area = largest(numbers);
    area[TAKEN] = 0;
    all.push(BadState::new("no frame taken, and everything held", area));
    // fewer bits on a carrier, or a higher rate
    for place in [1, 2] {
        let mut area = largest(numbers);
        area[place] = if place == 1 { 2 } else { 5 };
        if area[place] != numbers[place] {
            all.push(BadState::new("more than the settings have room for", area));
        }
    }
    all.extend(before_a_frame(numbers));
    all
}
