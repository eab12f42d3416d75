//! The standard's own machines, one for each of the rules 2 to 6: a shift register for each generator, a queue for each delay.

use std::collections::VecDeque;

use crate::layer::Numbers;
use crate::state::LINES;

/// Rule 2, the energy dispersal generator: fifteen stages, of which stage 1 is the first.
pub struct Dispersal {
    stages: VecDeque<u8>,
}

impl Dispersal {
    /// As it is loaded at a frame's start.
    pub fn new() -> Self {
        let load = "100101010000000";
        Dispersal {
            stages: load.bytes().map(|digit| digit - b'0').collect(),
        }
    }

    fn bit(&mut self) -> u8 {
        let out = self.stages[13] ^ self.stages[14];
        self.stages.pop_back();
        self.stages.push_front(out);
        out
    }

    /// The next eight bits, the first highest.
    pub fn byte(&mut self) -> u8 {
        (0..8).fold(0, |byte, _| byte << 1 | self.bit())
    }

    /// Adds the sequence to a word. The sync byte at its end is passed over, and the generator goes on.
    pub fn word(&mut self, word: &mut [u8]) {
        for (place, byte) in word.iter_mut().enumerate() {
            let sequence = self.byte();
            if place != 203 {
                *byte ^= sequence;
            }
        }
    }
}

impl Default for Dispersal {
    fn default() -> Self {
        Dispersal::new()
    }
}

/// What goes into a queue of fixed length pushes the oldest out of it: a delay.
fn delayed(queue: &mut VecDeque<u8>, value: u8) -> u8 {
    queue.push_back(value);
    queue.pop_front().expect("a value has just been put in")
}

/// Cuts a list into queues of these lengths, one behind the other.
fn queues(lengths: impl Iterator<Item = usize>, list: &[u8]) -> Vec<VecDeque<u8>> {
    let mut rest = list.iter().copied();
    lengths
        .map(|length| rest.by_ref().take(length).collect())
        .collect()
}

/// Rule 3: twelve branches, of which branch i is a queue of 17 i bytes, served in turn.
pub struct ByteInterleaver {
    branches: Vec<VecDeque<u8>>,
}

impl ByteInterleaver {
    /// From the 1,122 bytes of a state: branch 1 first, the oldest first.
    pub fn new(memory: &[u8]) -> Self {
        ByteInterleaver {
            branches: queues((0..12).map(|i| 17 * i), memory),
        }
    }

    /// Going back, branch i waits for the rest of 11 times 17 bytes: branch 0 first, the oldest first.
    pub fn back(memory: &[u8]) -> Self {
        ByteInterleaver {
            branches: queues((0..12).map(|i| 17 * (11 - i)), memory),
        }
    }

    pub fn word(&mut self, word: &mut [u8]) {
        let branches = self.branches.len();
        for (place, byte) in word.iter_mut().enumerate() {
            *byte = delayed(&mut self.branches[place % branches], *byte);
        }
    }

    pub fn memory(&self) -> Vec<u8> {
        self.branches.iter().flatten().copied().collect()
    }
}

/// Rule 4: a shift register. Stage 0 is the bit that came in last, and behind it are the six before.
pub struct ConvolutionalCoder {
    stages: [u8; 7],
}

/// How many bits back the taps of X and Y are; 0 is the bit that comes in.
const TAPS_OF_X: [usize; 5] = [0, 1, 2, 3, 6];
const TAPS_OF_Y: [usize; 5] = [0, 2, 3, 5, 6];

impl ConvolutionalCoder {
    /// From the register of a state, in which the newest bit is the highest of six.
    pub fn new(register: u8) -> Self {
        let mut stages = [0; 7];
        for (stage, digit) in stages.iter_mut().zip(format!("{register:06b}").bytes()) {
            *stage = digit - b'0';
        }
        ConvolutionalCoder { stages }
    }

    /// X and Y of the next message bit.
    pub fn bit(&mut self, bit: u8) -> (u8, u8) {
        self.stages.rotate_right(1);
        self.stages[0] = bit;
        let sum = |taps: [usize; 5]| taps.iter().fold(0, |sum, &back| sum ^ self.stages[back]);
        (sum(TAPS_OF_X), sum(TAPS_OF_Y))
    }

    pub fn register(&self) -> u8 {
        let six = &self.stages[..6];
        six.iter().fold(0, |number, bit| number << 1 | bit)
    }
}

/// Rule 5: what is kept of each message bit's X and Y, by rate 1 to 5.
const PATTERNS: [&[&str]; 5] = [
    &["XY"],
    &["XY", "Y"],
    &["XY", "Y", "X"],
    &["XY", "Y", "X", "Y", "X"],
    &["XY", "Y", "Y", "Y", "X", "Y", "X"],
];

/// A pattern, and where in it the next message bit falls.
pub struct Puncturing {
    pattern: &'static [&'static str],
    next: usize,
}

impl Puncturing {
    /// At a frame's start.
    pub fn new(rate: u8) -> Self {
        Puncturing {
            pattern: PATTERNS[usize::from(rate) - 1],
            next: 0,
        }
    }

    /// Puts what is kept of the next message bit behind the bits kept before.
    pub fn keep(&mut self, (x, y): (u8, u8), kept: &mut VecDeque<u8>) {
        for letter in self.pattern[self.next].bytes() {
            kept.push_back(if letter == b'X' { x } else { y });
        }
        self.next += 1;
        if self.next == self.pattern.len() {
            self.next = 0;
        }
    }

    /// The other way: what was received of the next message bit, from the kept bits in their order; 2 is a bit that was not sent.
    pub fn received(&mut self, kept: &mut VecDeque<u8>) -> (u8, u8) {
        let (mut x, mut y) = (2, 2);
        for letter in self.pattern[self.next].chars() {
            let bit = kept.pop_front().expect("the word's kept bits are there");
            *(if letter == 'X' { &mut x } else { &mut y }) = bit;
        }
        self.next = (self.next + 1) % self.pattern.len();
        (x, y)
    }

    /// How many bits are kept of so many message bits from here on, which are passed over.
    pub fn passed(&mut self, bits: usize) -> usize {
        let length = self.pattern.len();
        let whole: usize = self.pattern.iter().map(|letters| letters.len()).sum();
        let rest = self.pattern.iter().cycle().skip(self.next);
        let rest: usize = rest.take(bits % length).map(|letters| letters.len()).sum();
        self.next = (self.next + bits) % length;
        bits / length * whole + rest
    }

    /// Whether a pattern has just ended, as it has to at a frame's end.
    pub fn at_start(&self) -> bool {
        self.next == 0
    }
}

/// Rule 6: a queue for each bit of a carrier, line 0 the highest.
pub struct BitInterleaver {
    lines: Vec<VecDeque<u8>>,
}

impl BitInterleaver {
    /// From the 360 entries of a state: line 1 first, the oldest first.
    pub fn new(numbers: Numbers, entries: &[u8]) -> Self {
        BitInterleaver {
            lines: queues(numbers.line_lengths().into_iter(), entries),
        }
    }

    /// The next carrier's value, once a kept bit has come for each line.
    pub fn carrier(&mut self, kept: &mut VecDeque<u8>) -> Option<u8> {
        if kept.len() < self.lines.len() {
            return None;
        }
        let mut value = 0;
        for line in &mut self.lines {
            let bit = kept.pop_front()?;
            value = value << 1 | delayed(line, bit);
        }
        Some(value)
    }

    /// What the lines hold, and zeros up to 360.
    pub fn entries(&self) -> Vec<u8> {
        let mut entries: Vec<u8> = self.lines.iter().flatten().copied().collect();
        entries.resize(LINES, 0);
        entries
    }
}

/// Rule 6 the other way: the delays are made up to 120 carriers in all.
pub struct BitDeinterleaver {
    lines: Vec<VecDeque<u8>>,
}

impl BitDeinterleaver {
    /// From the 360 entries of a receiving state: line 0 first, the oldest first.
    pub fn new(numbers: Numbers, entries: &[u8]) -> Self {
        let waits = numbers.line_lengths().into_iter().map(|delay| 120 - delay);
        BitDeinterleaver {
            lines: queues(waits, entries),
        }
    }

    /// The bits that come out when a carrier goes in, line 0 first.
    pub fn carrier(&mut self, value: u8) -> Vec<u8> {
        let last = self.lines.len() - 1;
        let lines = self.lines.iter_mut().enumerate();
        lines
            .map(|(line, queue)| delayed(queue, value >> (last - line) & 1))
            .collect()
    }

    /// What the lines hold, and zeros up to 360.
    pub fn entries(&self) -> Vec<u8> {
        let mut entries: Vec<u8> = self.lines.iter().flatten().copied().collect();
        entries.resize(LINES, 0);
        entries
    }
}
