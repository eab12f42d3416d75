//! A whole frame through the machines, a packet at a time.

use std::collections::VecDeque;

use crate::machines::{BitInterleaver, ByteInterleaver, ConvolutionalCoder, Dispersal, Puncturing};
use crate::reed_solomon::parity;
use crate::state::State;

/// The bytes of a packet and of a word, and the byte that every packet begins with.
pub const PACKET: usize = 188;
pub const WORD: usize = 204;
pub const SYNC: u8 = 0x47;

/// Rule 1: the word sent for a packet is its codeword without the sync byte, and then the sync byte of the packet after it.
pub fn word_of(packet: &[u8]) -> Vec<u8> {
    let mut word = packet[1..].to_vec();
    word.extend(parity(packet));
    word.push(SYNC);
    word
}

/// The machines as they stand between two packets of a frame.
pub struct Frame {
    dispersal: Dispersal,
    branches: ByteInterleaver,
    coder: ConvolutionalCoder,
    puncturing: Puncturing,
    /// Kept bits that do not fill a carrier yet.
    kept: VecDeque<u8>,
    lines: BitInterleaver,
}

impl Frame {
    /// At a frame's start: the dispersal and the puncturing begin anew, the rest goes on from a good state.
    pub fn new(state: &State) -> Self {
        Frame {
            dispersal: Dispersal::new(),
            branches: ByteInterleaver::new(&state.memory),
            coder: ConvolutionalCoder::new(state.register),
            puncturing: Puncturing::new(state.numbers.rate),
            kept: VecDeque::new(),
            lines: BitInterleaver::new(state.numbers, &state.lines),
        }
    }

    /// Rules 1 to 3: the word of the stream that comes out when a packet goes in.
    pub fn stream_word(&mut self, packet: &[u8]) -> Vec<u8> {
        let mut word = word_of(packet);
        self.dispersal.word(&mut word);
        self.branches.word(&mut word);
        word
    }

    /// Rules 4 to 6: the carriers that are full after a byte of the stream.
    fn byte(&mut self, byte: u8, carriers: &mut Vec<u8>) {
        for place in (0..8).rev() {
            let coded = self.coder.bit(byte >> place & 1);
            self.puncturing.keep(coded, &mut self.kept);
        }
        while let Some(value) = self.lines.carrier(&mut self.kept) {
            carriers.push(value);
        }
    }

    /// Takes a packet, and puts the carriers that are full then behind those before.
    pub fn packet(&mut self, packet: &[u8], carriers: &mut Vec<u8>) {
        for byte in self.stream_word(packet) {
            self.byte(byte, carriers);
        }
    }

    /// What stands in the machines at the frame's end.
    pub fn state_after(self, before: &State) -> State {
        assert!(
            self.puncturing.at_start(),
            "a frame is a whole number of patterns"
        );
        assert!(self.kept.is_empty(), "a frame fills its last carrier");
        State {
            numbers: before.numbers,
            memory: self.branches.memory(),
            register: self.coder.register(),
            lines: self.lines.entries(),
        }
    }
}
