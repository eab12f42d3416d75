//! Coding states of one layer: good ones, and every kind that is not.

use second::layer::Numbers;
use second::random::Random;
use second::state::{State, LINES, MEMORY, STATE};

/// Where the parts of a state's area begin.
const REGISTER: usize = 4 + MEMORY;
const ENTRIES: usize = REGISTER + 1;

/// How many of the 360 entries are used: those of the lines 1 to v - 1.
fn used(numbers: [u8; 4]) -> usize {
    Numbers::from(numbers).line_lengths().iter().sum()
}

/// As a layer is started.
pub fn fresh(numbers: [u8; 4]) -> Vec<u8> {
    State::start(Numbers::from(numbers)).1.bytes()
}

/// A good state with every part random.
pub fn random(random: &mut Random, numbers: [u8; 4]) -> Vec<u8> {
    let mut area = numbers.to_vec();
    area.extend(random.bytes(MEMORY));
    area.push(random.below(64) as u8);
    area.extend((0..used(numbers)).map(|_| random.below(2) as u8));
    area.resize(STATE, 0);
    area
}

/// The good state in which every part is as large as it may be.
pub fn largest(numbers: [u8; 4]) -> Vec<u8> {
    let mut area = numbers.to_vec();
    area.extend([255; MEMORY]);
    area.push(63);
    area.extend(vec![1; used(numbers)]);
    area.resize(STATE, 0);
    area
}

/// A state that isn't good, and why.
pub struct BadState {
    pub why: String,
    pub area: Vec<u8>,
}

impl BadState {
    pub fn new(why: impl Into<String>, area: Vec<u8>) -> Self {
        BadState {
            why: why.into(),
            area,
        }
    }
}

/// The places of a state that have a range, and values outside it.
fn out_of_range(numbers: [u8; 4]) -> Vec<(&'static str, usize, Vec<u8>)> {
    let used = used(numbers);
    let mut all = vec![
        ("mode", 0, vec![0, 4, 5, 128, 255]),
        ("v", 1, vec![0, 1, 3, 5, 7, 8, 130, 255]),
        ("rate", 2, vec![0, 6, 7, 129, 255]),
        ("segments", 3, vec![0, 14, 15, 129, 255]),
        ("register", REGISTER, vec![64, 65, 127, 128, 255]),
    ];
    for entry in [0, 1, used / 2, used - 1] {
        all.push(("entry", ENTRIES + entry, vec![2, 3, 128, 255]));
    }
    // 64QAM uses all the entries
    if used < LINES {
        for entry in [used, (used + LINES) / 2, LINES - 1] {
            all.push(("unused entry", ENTRIES + entry, vec![1, 2, 255]));
        }
    }
    all
}

/// Every kind of state that isn't good and isn't all zero: by one number alone, and by fewer lines than it has entries.
pub fn bad(random: &mut Random, numbers: [u8; 4]) -> Vec<BadState> {
    let good = self::random(random, numbers);
    let mut all = Vec::new();
    for (what, place, values) in out_of_range(numbers) {
        for value in values {
            let mut area = good.clone();
            area[place] = value;
            all.push(BadState::new(
                format!("{what} {value} at byte {place}"),
                area,
            ));
        }
    }
    if numbers[1] > 2 {
        let mut area = largest(numbers);
        area[1] -= 2;
        all.push(BadState::new("entries of more lines than v has", area));
    }
    all
}
