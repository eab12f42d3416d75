//! Texts for the programs `coding` and `receiving`: a settings line and frames, most of them good, in digits of either case.

use crate::entries::code;
use crate::frame::{PACKET, SYNC};
use crate::layer::{Numbers, Sizes};
use crate::lines::digits;
use crate::random::Random;
use crate::state::State;

/// The program that a text is for.
#[derive(Clone, Copy, PartialEq)]
pub enum Program {
    Coding,
    Receiving,
}

/// The 45 layers that the programs take: N times 2^(mode - 1) is at most 2.
pub fn layers() -> Vec<Numbers> {
    let mut all = Vec::new();
    for [mode, segments] in [[1, 1], [1, 2], [2, 1]] {
        for bits in [2, 4, 6] {
            for rate in 1..=5 {
                all.push(Numbers::from([mode, bits, rate, segments]));
            }
        }
    }
    all
}

/// The settings line of a layer, without its line feed.
pub fn settings_line(numbers: Numbers) -> String {
    let Numbers {
        mode,
        bits,
        rate,
        segments,
    } = numbers;
    digits(&[mode, bits, rate, segments])
}

/// The case of a line's letters.
#[derive(Clone, Copy)]
pub enum Case {
    Capitals,
    Small,
    Mixed,
}

/// Bytes as a line of digits, without its line feed.
pub fn line(random: &mut Random, case: Case, bytes: &[u8]) -> Vec<u8> {
    let mut line = digits(bytes).into_bytes();
    for digit in &mut line {
        let small = match case {
            Case::Capitals => false,
            Case::Small => true,
            Case::Mixed => random.below(2) == 0,
        };
        if small {
            digit.make_ascii_lowercase();
        }
    }
    line
}

/// What happens to the carriers of a frame on their way to the receiver.
#[derive(Clone, Copy)]
pub enum Way {
    /// So many of a thousand bits are wrong.
    Wrong(u64),
    /// So many runs of so many carriers are random.
    Bursts(usize, usize),
    Random,
}

impl Way {
    /// One of them: up to 8 % of the bits wrong most often.
    fn any(random: &mut Random) -> Self {
        match random.below(8) {
            0 | 1 => Way::Wrong(0),
            2 | 3 => Way::Wrong(random.below(20)),
            4 | 5 => Way::Wrong(random.below(81)),
            6 => Way::Bursts(1 + random.below(12) as usize, 200),
            _ => Way::Random,
        }
    }

    fn disturb(self, random: &mut Random, bits: u8, carriers: &mut [u8]) {
        match self {
            Way::Wrong(often) => {
                for carrier in carriers {
                    for bit in 0..bits {
                        *carrier ^= u8::from(random.below(1000) < often) << bit;
                    }
                }
            }
            Way::Bursts(count, length) => {
                for _ in 0..count {
                    let at = random.below((carriers.len() - length) as u64) as usize;
                    Way::Random.disturb(random, bits, &mut carriers[at..at + length]);
                }
            }
            Way::Random => carriers.fill_with(|| random.below(1 << bits) as u8),
        }
    }
}

/// Makes the frames of a layer for a program: packets, or the carriers that the second program's own coder makes of them.
pub struct Sender {
    program: Program,
    state: State,
    sizes: Sizes,
    pub random: Random,
}

impl Sender {
    pub fn new(program: Program, numbers: Numbers, seed: u64) -> Self {
        Sender {
            program,
            state: State::start(numbers).1,
            sizes: numbers.sizes().expect("legal settings"),
            random: Random::new(seed),
        }
    }

    pub fn packets(&mut self) -> Vec<u8> {
        let mut packets = self.random.bytes(PACKET * self.sizes.packets as usize);
        for packet in packets.chunks_mut(PACKET) {
            packet[0] = SYNC;
        }
        packets
    }

    /// The carriers of random packets, and the coder's state behind them.
    fn carriers(&mut self) -> (Vec<u8>, State) {
        let packets = self.packets();
        let mut carriers = vec![0; self.sizes.carriers as usize];
        let (_, after) = code(&self.state, &packets, &mut carriers);
        (carriers, after)
    }

    /// A frame that is taken. Carriers come this way.
    pub fn good(&mut self, way: Way) -> Vec<u8> {
        if self.program == Program::Coding {
            return self.packets();
        }
        let (mut carriers, after) = self.carriers();
        self.state = after;
        way.disturb(&mut self.random, self.state.numbers.bits, &mut carriers);
        carriers
    }

    /// A frame that is refused by one byte: a packet's first byte isn't 47, or a carrier is too large.
    pub fn refused(&mut self) -> Vec<u8> {
        if self.program == Program::Coding {
            let mut packets = self.packets();
            let packet = self.random.below(u64::from(self.sizes.packets)) as usize;
            packets[PACKET * packet] ^= 1 + self.random.below(255) as u8;
            return packets;
        }
        let (mut carriers, _) = self.carriers();
        let place = self.random.below(u64::from(self.sizes.carriers)) as usize;
        let least = 1 << self.state.numbers.bits;
        carriers[place] = (least + self.random.below(256 - least)) as u8;
        carriers
    }
}

/// Lines put together, each with its line feed.
pub fn text(lines: &[Vec<u8>]) -> Vec<u8> {
    let mut text = lines.join(&b'\n');
    text.push(b'\n');
    text
}

/// A text of so many frames by seed, of the layer that the seed names among the 45. The last line may lack its line feed.
pub fn random(program: Program, seed: u64, frames: u64) -> Vec<u8> {
    let numbers = layers()[(seed % 45) as usize];
    let mut sender = Sender::new(program, numbers, seed);
    let mut lines = vec![settings_line(numbers).into_bytes()];
    for _ in 0..frames {
        let frame = if sender.random.below(5) == 0 {
            sender.refused()
        } else {
            let way = Way::any(&mut sender.random);
            sender.good(way)
        };
        let case = [Case::Capitals, Case::Small, Case::Mixed][sender.random.below(3) as usize];
        lines.push(line(&mut sender.random, case, &frame));
    }
    let mut text = text(&lines);
    if sender.random.below(2) == 0 {
        text.pop();
    }
    text
}

/// The input of a program's run case: a small layer, frames taken before and after a refused one, either case of letters, and a
/// last line without its line feed. (Carriers of two bits would be written without letters.)
pub fn sample(program: Program) -> Vec<u8> {
    let numbers = match program {
        Program::Coding => Numbers::from([1, 2, 1, 1]),
        Program::Receiving => Numbers::from([1, 4, 1, 1]),
    };
    let mut sender = Sender::new(program, numbers, 8);
    let frames = [
        (Case::Capitals, sender.good(Way::Wrong(0))),
        (Case::Small, sender.refused()),
        (Case::Mixed, sender.good(Way::Wrong(60))),
        (Case::Small, sender.good(Way::Bursts(6, 120))),
    ];
    let mut lines = vec![settings_line(numbers).into_bytes()];
    for (case, frame) in frames {
        lines.push(line(&mut sender.random, case, &frame));
    }
    let mut text = text(&lines);
    text.pop();
    text
}
