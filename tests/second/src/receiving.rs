//! Going back, by queues and by a plain search: the receiving state, and a frame of carriers to slots.

use std::collections::VecDeque;

use crate::best::best;
use crate::entries::dispersed_off;
use crate::frame::WORD;
use crate::layer::Numbers;
use crate::machines::{BitDeinterleaver, ByteInterleaver, Puncturing};
use crate::reed_solomon::slot;
use crate::state::{LINES, MEMORY};

/// The room for the bits of the unfinished word, and the length of a receiving state that is written out in bytes.
pub const HELD: usize = 3072;
pub const STATE: usize = 5 + MEMORY + LINES + 1 + HELD;

/// The bytes of a slot.
pub const SLOT: usize = 189;

/// A receiving state, good or not.
#[derive(Clone, Debug, PartialEq)]
pub struct State {
    pub numbers: Numbers,
    pub taken: u8,
    /// Branch 0 first, the oldest byte first.
    pub memory: Vec<u8>,
    /// Line 0 first, the oldest bit first; zeros behind them.
    pub lines: Vec<u8>,
    pub register: u8,
    /// The bits of the unfinished word; zeros behind them.
    pub held: Vec<u8>,
}

/// How many bits are kept of word `number` of a frame.
fn kept_of_word(numbers: Numbers, number: usize) -> usize {
    let mut puncturing = Puncturing::new(numbers.rate);
    puncturing.passed(8 * WORD * number);
    puncturing.passed(8 * WORD)
}

/// How many bits are held after a frame: what the last word has, less 120 carriers.
pub fn held_after(numbers: Numbers) -> usize {
    let packets = numbers.sizes().expect("legal settings").packets as usize;
    kept_of_word(numbers, packets - 1) - 120 * usize::from(numbers.bits)
}

/// The first entries are 0 or 1, the others 0.
fn in_range(entries: &[u8], used: usize) -> bool {
    let (first, rest) = entries.split_at(used);
    first.iter().all(|&bit| bit < 2) && rest.iter().all(|&bit| bit == 0)
}

impl State {
    fn empty(numbers: Numbers) -> Self {
        State {
            numbers,
            taken: 0,
            memory: vec![0; MEMORY],
            lines: vec![0; LINES],
            register: 0,
            held: vec![0; HELD],
        }
    }

    /// Starts a layer: the number of the refusal, and the state before the first frame. A refused start gives zeros.
    pub fn start(numbers: Numbers) -> (u8, Self) {
        match numbers.sizes() {
            Ok(_) => (0, State::empty(numbers)),
            Err(refusal) => (refusal, State::empty(Numbers::from([0; 4]))),
        }
    }

    /// Legal settings, every entry in range, and before the first frame nothing but the settings.
    pub fn good(&self) -> bool {
        if self.numbers.sizes().is_err() || self.taken > 1 || self.register > 63 {
            return false;
        }
        if self.taken == 0 {
            return *self == State::empty(self.numbers);
        }
        let waits: usize = self
            .numbers
            .line_lengths()
            .iter()
            .map(|delay| 120 - delay)
            .sum();
        in_range(&self.lines, waits) && in_range(&self.held, held_after(self.numbers))
    }

    pub fn from_bytes(area: &[u8]) -> Option<Self> {
        if area.len() != STATE {
            return None;
        }
        let (head, rest) = area.split_at(5);
        let (memory, rest) = rest.split_at(MEMORY);
        let (lines, rest) = rest.split_at(LINES);
        let (register, held) = rest.split_at(1);
        Some(State {
            numbers: Numbers::from([head[0], head[1], head[2], head[3]]),
            taken: head[4],
            memory: memory.to_vec(),
            lines: lines.to_vec(),
            register: register[0],
            held: held.to_vec(),
        })
    }

    pub fn bytes(&self) -> Vec<u8> {
        let Numbers {
            mode,
            bits,
            rate,
            segments,
        } = self.numbers;
        let mut bytes = vec![mode, bits, rate, segments, self.taken];
        bytes.extend(&self.memory);
        bytes.extend(&self.lines);
        bytes.push(self.register);
        bytes.extend(&self.held);
        bytes
    }
}

/// Why a frame is not taken, or 0.
fn refusal(state: &State, carriers: &[u8], slots: &[u8]) -> u8 {
    if !state.good() {
        return 7;
    }
    let sizes = state.numbers.sizes().expect("legal settings");
    if carriers.len() != sizes.carriers as usize {
        return 6;
    }
    if slots.len() != SLOT * sizes.packets as usize {
        return 5;
    }
    if carriers
        .iter()
        .any(|&value| value >> state.numbers.bits != 0)
    {
        return 10;
    }
    0
}

/// The kept bits that have come out of the lines by the frame's end, behind those that were held before it.
fn kept_bits(state: &State, carriers: &[u8], lines: &mut BitDeinterleaver) -> VecDeque<u8> {
    let mut kept = VecDeque::new();
    if state.taken == 1 {
        kept.extend(&state.held[..held_after(state.numbers)]);
    }
    for (position, &value) in carriers.iter().enumerate() {
        let bits = lines.carrier(value);
        // of the first frame the first 120 positions are dropped
        if state.taken == 1 || position >= 120 {
            kept.extend(bits);
        }
    }
    kept
}

/// The message bits of a word as its bytes.
fn bytes_of(message: &[u8]) -> Vec<u8> {
    let bytes = message.chunks(8);
    bytes
        .map(|bits| bits.iter().fold(0, |byte, bit| byte << 1 | bit))
        .collect()
}

/// The message of the next word: the best of what was received of it, and the register after it.
fn next_message(
    puncturing: &mut Puncturing,
    kept: &mut VecDeque<u8>,
    register: u8,
) -> (Vec<u8>, u8) {
    let pairs: Vec<u8> = (0..8 * WORD)
        .map(|_| {
            let (x, y) = puncturing.received(kept);
            3 * x + y
        })
        .collect();
    let message = best(&pairs, register);
    let six = message[message.len() - 6..].iter().rev();
    let register = six.fold(0, |register, bit| register << 1 | bit);
    (message, register)
}

/// Takes a frame: the number, how many packets were given, and the state after it.
pub fn back(state: &State, carriers: &[u8], slots: &mut [u8]) -> (u8, usize, State) {
    let number = refusal(state, carriers, slots);
    if number != 0 {
        return (number, 0, state.clone());
    }
    let packets = slots.len() / SLOT;
    let mut after = state.clone();
    let mut lines = BitDeinterleaver::new(state.numbers, &state.lines);
    let mut branches = ByteInterleaver::back(&state.memory);
    let mut kept = kept_bits(state, carriers, &mut lines);
    let mut word = if state.taken == 1 { packets - 1 } else { 0 };
    let mut puncturing = Puncturing::new(state.numbers.rate);
    puncturing.passed(8 * WORD * word);
    let (mut finished, mut given) = (0, 0);
    while kept.len() >= kept_of_word(state.numbers, word) {
        let (message, register) = next_message(&mut puncturing, &mut kept, after.register);
        after.register = register;
        let mut bytes = bytes_of(&message);
        branches.word(&mut bytes);
        if state.taken == 1 || finished >= 11 {
            let sent = (word + packets - 11) % packets;
            let received = dispersed_off(sent, &bytes);
            slots[SLOT * given..][..SLOT].copy_from_slice(&slot(&received));
            given += 1;
        }
        finished += 1;
        word = (word + 1) % packets;
        if word == 0 {
            puncturing = Puncturing::new(state.numbers.rate);
        }
    }
    after.taken = 1;
    after.memory = branches.memory();
    after.lines = lines.entries();
    after.held = kept.into_iter().collect();
    after.held.resize(HELD, 0);
    (0, given, after)
}

#[cfg(test)]
mod tests {
    use super::*;
    use crate::entries;
    use crate::frame::{PACKET, SYNC};
    use crate::random::Random;
    use crate::state;

    /// Frames coded from a fresh state come back packet for packet, none corrected: P - 12 of the first, P of each other.
    #[test]
    fn what_is_coded_comes_back() {
        let mut random = Random::new(5);
        for numbers in [[1, 2, 1, 1], [1, 4, 3, 1], [1, 6, 5, 1], [1, 2, 4, 1]] {
            let numbers = Numbers::from(numbers);
            let sizes = numbers.sizes().unwrap();
            let (packets, carrier_count) = (sizes.packets as usize, sizes.carriers as usize);
            let mut coding = state::State::start(numbers).1;
            let mut receiving = State::start(numbers).1;
            let (mut sent, mut came): (Vec<u8>, Vec<u8>) = (Vec::new(), Vec::new());
            for turn in 0..3 {
                let mut frame = random.bytes(PACKET * packets);
                frame.chunks_mut(PACKET).for_each(|packet| packet[0] = SYNC);
                let mut carriers = vec![0; carrier_count];
                coding = entries::code(&coding, &frame, &mut carriers).1;
                let mut slots = vec![99; SLOT * packets];
                let (number, given, after) = back(&receiving, &carriers, &mut slots);
                assert_eq!(
                    (number, given),
                    (0, if turn == 0 { packets - 12 } else { packets })
                );
                assert!(after.good());
                receiving = after;
                sent.extend(frame);
                for slot in slots[..SLOT * given].chunks(SLOT) {
                    assert_eq!(slot[0], 0);
                    came.extend_from_slice(&slot[1..]);
                }
            }
            assert_eq!(came[..], sent[..came.len()]);
        }
    }
}
