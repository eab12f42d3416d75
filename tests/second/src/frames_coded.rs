//! Frames coded from lent states: what the program `cases_coding` reads and should print.

use std::iter::successors;

use crate::entries::code;
use crate::frame::{PACKET, SYNC};
use crate::layer::Numbers;
use crate::random::Random;
use crate::state::{State, LINES, MEMORY, STATE};

/// The bytes of a record: a state's area, a fault, and a seed for the packets.
const RECORD: usize = STATE + 2;

/// What a record's fault spoils.
const SHORT_PACKETS: u8 = 1;
const SHORT_CARRIERS: u8 = 2;
const OTHER_SYNC: u8 = 3;

/// So many bytes that look random and are the same for the same start.
fn filling(start: u32, count: usize) -> Vec<u8> {
    let next = |x: &u32| Some((x * 75 + 74) % 65537);
    let numbers = successors(Some(start), next).skip(1);
    numbers.take(count).map(|x| x as u8).collect()
}

/// The packets of a frame, with the fault.
fn packets(start: u32, count: usize, fault: u8) -> Vec<u8> {
    let mut packets = filling(start, PACKET * count);
    for packet in packets.chunks_mut(PACKET) {
        packet[0] = SYNC;
    }
    if let (OTHER_SYNC, Some(last)) = (fault, packets.chunks_mut(PACKET).last()) {
        last[0] = 0x48;
    }
    if fault == SHORT_PACKETS {
        packets.pop();
    }
    packets
}

/// The checksum of carriers, or of other bytes.
pub fn checksum(bytes: &[u8]) -> u64 {
    bytes.iter().fold(0, |sum, &byte| {
        (sum * 31 + u64::from(byte) + 1) % 1_000_000_007
    })
}

/// The packets and carriers of a frame, none where the layer is not legal; nothing where the program has no room for it.
fn sizes(numbers: Numbers) -> Option<(usize, usize)> {
    match numbers.sizes() {
        Ok(_) if numbers.segments << (numbers.mode - 1) > 2 => None,
        Ok(sizes) => Some((sizes.packets as usize, sizes.carriers as usize)),
        Err(_) => Some((0, 0)),
    }
}

/// What the program `cases_coding` prints: for each of two frames the number, the state behind it, and the checksum.
pub fn answers(records: &[u8]) -> Vec<u8> {
    let mut out = Vec::new();
    for record in records.chunks_exact(RECORD) {
        let (fault, seed) = (record[STATE], u32::from(record[STATE + 1]));
        let mut state = State::from_bytes(&record[..STATE]).expect("a record holds a whole state");
        let (count, carrier_count) = match sizes(state.numbers) {
            Some((count, carrier_count)) => (count, carrier_count),
            None => continue,
        };
        for start in [seed + 1, seed + 257] {
            let packets = packets(start, count, fault);
            let mut carriers = filling(start, carrier_count);
            if fault == SHORT_CARRIERS {
                carriers.pop();
            }
            let (number, after) = code(&state, &packets, &mut carriers);
            out.push(number);
            out.extend(after.bytes());
            out.extend(checksum(&carriers).to_be_bytes());
            state = after;
        }
    }
    out
}

/// The layer of a record: the 15 settings of v and rate in turn, mode 1 and one segment the first time, and then half of
/// them with two segments, in mode 2, or with more than there is room for.
fn layer(turn: u64, random: &mut Random) -> Numbers {
    let larger = [[2, 1], [1, 2], [2, 1], [1, 2], [3, 1], [1, 3]];
    let [mode, segments] = match turn {
        15.. if turn % 4 < 2 => larger[random.below(6) as usize],
        _ => [1, 1],
    };
    let (bits, rate) = (2 + 2 * (turn / 5 % 3), 1 + turn % 5);
    Numbers::from([mode, bits as u8, rate as u8, segments])
}

/// Makes a good state a bad one by one number: a setting, the register, an entry, or what stands behind the entries.
fn spoil(kind: u64, area: &mut [u8], random: &mut Random) {
    let used = 60 * usize::from(area[1]);
    let (register, lines) = (4 + MEMORY, 5 + MEMORY);
    let any = random.below(4) as usize;
    match kind {
        0 => area[any] = [4, 3, 6, 14][any],
        1 => area[register] = 64 + random.below(192) as u8,
        2 => area[lines + random.below(used as u64) as usize] = 2,
        _ if used < LINES => area[lines + used] = 1,
        _ => area[STATE - 1] = 255,
    }
}

/// Records by seed: fresh states and random ones; from the sixteenth on each fault and each kind of bad state, or both.
pub fn random(seed: u64, count: u64) -> Vec<u8> {
    let mut random = Random::new(seed);
    let mut records = Vec::new();
    for turn in 0..count {
        let (_, mut state) = State::start(layer(turn, &mut random));
        if turn % 2 != 0 {
            let used = 60 * usize::from(state.numbers.bits);
            state.memory = random.bytes(MEMORY);
            state.register = random.below(64) as u8;
            state.lines[..used].fill_with(|| random.below(2) as u8);
        }
        let mut area = state.bytes();
        let fault = if turn < 15 || turn % 11 > 3 {
            0
        } else {
            turn % 11
        };
        if turn >= 15 && turn % 9 < 4 {
            spoil(turn % 9, &mut area, &mut random);
        }
        records.extend(area);
        records.extend([fault as u8, random.below(256) as u8]);
    }
    records
}

#[cfg(test)]
mod tests {
    use super::*;

    /// Every number is answered among random records, and the larger layers are passed over.
    #[test]
    fn every_number_is_answered() {
        let answers = answers(&random(1, 60));
        let numbers = answers.chunks_exact(1 + STATE + 8).map(|frame| frame[0]);
        for number in [0, 5, 6, 7, 8] {
            assert!(numbers.clone().any(|answered| answered == number));
        }
        assert!(numbers.len() < 2 * 60);
    }
}
