//! Calls of the entry for one word: what the program `cases_words` reads and should print.

use crate::entries::disperse_interleave;
use crate::frame::WORD;
use crate::random::Random;
use crate::state::{State, LINES, MEMORY};

/// The bytes of one call: the settings, the place, the memory, the register, the lines, and a word.
const RECORD: usize = 4 + 2 + MEMORY + 1 + LINES + WORD;

/// The state, the place and the word of a call.
fn parts(call: &[u8]) -> (State, usize, &[u8]) {
    let (settings, rest) = call.split_at(4);
    let (place, rest) = rest.split_at(2);
    let (held, word) = rest.split_at(MEMORY + 1 + LINES);
    let state = State::from_bytes(&[settings, held].concat()).expect("a call holds a whole state");
    (
        state,
        usize::from(place[0]) * 256 + usize::from(place[1]),
        word,
    )
}

/// What the program `cases_words` prints for the calls: the number that is answered, the word after it and the memory.
pub fn answers(calls: &[u8]) -> Vec<u8> {
    let mut out = Vec::new();
    for call in calls.chunks_exact(RECORD) {
        let (state, place, word) = parts(call);
        let mut came = [0; WORD];
        let (number, after) = disperse_interleave(&state, place, word, &mut came);
        out.push(number);
        out.extend(came);
        out.extend(after.memory);
    }
    out
}

/// Random calls, most of them with a good state and a place in the frame.
pub fn random(seed: u64, count: u64) -> Vec<u8> {
    let mut random = Random::new(seed);
    let mut calls = Vec::new();
    for _ in 0..count {
        let [mode, half, rate, segments] = [3, 3, 5, 13].map(|end| 1 + random.below(end) as u8);
        let mut settings = [mode, 2 * half, rate, segments];
        let used = 60 * usize::from(settings[1]);
        let mut register = random.below(64) as u8;
        let mut lines: Vec<u8> = (0..360)
            .map(|i| if i < used { random.below(2) as u8 } else { 0 })
            .collect();
        let place = match random.below(4) {
            0 => random.below(65536),
            1 => random.below(24),
            _ => random.below(3300),
        };
        // now and then a state that is not good, by one number alone
        match random.below(24) {
            0 => settings[random.below(4) as usize] = random.below(16) as u8,
            1 => register = random.below(256) as u8,
            2 => lines[random.below(360) as usize] = random.below(4) as u8,
            _ => {}
        }
        calls.extend(settings);
        calls.extend([(place / 256) as u8, (place % 256) as u8]);
        calls.extend(random.bytes(1122));
        calls.push(register);
        calls.extend(lines);
        calls.extend(random.bytes(204));
    }
    calls
}

#[cfg(test)]
mod tests {
    use super::*;

    /// Every number is answered among random calls.
    #[test]
    fn every_number_is_answered() {
        let answers = answers(&random(1, 300));
        for number in [0, 7, 9] {
            assert!(answers
                .chunks_exact(205 + 1122)
                .any(|record| record[0] == number));
        }
    }
}
