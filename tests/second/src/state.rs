//! What goes from frame to frame: the coding state.

use crate::layer::Numbers;

/// The bytes of the byte interleaver, and the entries of the bit lines.
pub const MEMORY: usize = 1122;
pub const LINES: usize = 360;

/// The length of a state that is written out in bytes.
pub const STATE: usize = 4 + MEMORY + 1 + LINES;

/// A coding state, good or not.
#[derive(Clone, Debug, PartialEq)]
pub struct State {
    pub numbers: Numbers,
    /// Branch 1 first, the oldest byte first.
    pub memory: Vec<u8>,
    /// The last six message bits, the newest highest.
    pub register: u8,
    /// Line 1 first, the oldest bit first; zeros behind them.
    pub lines: Vec<u8>,
}

impl State {
    /// All zero but for the settings.
    fn empty(numbers: Numbers) -> Self {
        State {
            numbers,
            memory: vec![0; MEMORY],
            register: 0,
            lines: vec![0; LINES],
        }
    }

    /// Starts a layer: the number of the refusal, and the state before the first frame. A refused start gives zeros.
    pub fn start(numbers: Numbers) -> (u8, Self) {
        match numbers.sizes() {
            Ok(_) => (0, State::empty(numbers)),
            Err(refusal) => (refusal, State::empty(Numbers::from([0; 4]))),
        }
    }

    /// Legal settings, a register below 64, entries of 0 or 1, and zeros where the lines have no entry.
    pub fn good(&self) -> bool {
        if self.numbers.sizes().is_err() {
            return false;
        }
        let used: usize = self.numbers.line_lengths().iter().sum();
        let (lines, rest) = self.lines.split_at(used);
        self.register < 64 && lines.iter().all(|&bit| bit < 2) && rest.iter().all(|&bit| bit == 0)
    }

    /// The state that stands in so many bytes; nothing if the area has another length.
    pub fn from_bytes(area: &[u8]) -> Option<Self> {
        if area.len() != STATE {
            return None;
        }
        let (numbers, rest) = area.split_at(4);
        let (memory, rest) = rest.split_at(MEMORY);
        let (register, lines) = rest.split_at(1);
        Some(State {
            numbers: Numbers::from([numbers[0], numbers[1], numbers[2], numbers[3]]),
            memory: memory.to_vec(),
            register: register[0],
            lines: lines.to_vec(),
        })
    }

    /// The settings, the memory, the register and the lines, in this order.
    pub fn bytes(&self) -> Vec<u8> {
        let Numbers {
            mode,
            bits,
            rate,
            segments,
        } = self.numbers;
        let mut bytes = vec![mode, bits, rate, segments];
        bytes.extend(&self.memory);
        bytes.push(self.register);
        bytes.extend(&self.lines);
        bytes
    }
}

#[cfg(test)]
mod tests {
    use super::*;

    /// Document 01: N = 0, 13, 14 is 4; done; 4. The first of several refusals is given.
    #[test]
    fn a_start_is_done_or_refused() {
        for (numbers, expected) in [
            ([3, 6, 5, 0], 4),
            ([3, 6, 5, 13], 0),
            ([3, 6, 5, 14], 4),
            ([0, 0, 0, 0], 1),
            ([1, 3, 0, 0], 2),
            ([1, 2, 6, 0], 3),
        ] {
            let (refusal, state) = State::start(Numbers::from(numbers));
            assert_eq!(refusal, expected);
            assert_eq!(state.good(), expected == 0);
            assert!(state.bytes()[4..].iter().all(|&byte| byte == 0));
        }
    }

    /// Written out and read again, a state is what it was; another length is none.
    #[test]
    fn bytes_are_read_back() {
        let bytes: Vec<u8> = (0..STATE).map(|place| (place % 251) as u8).collect();
        assert_eq!(State::from_bytes(&bytes).unwrap().bytes(), bytes);
        assert_eq!(State::from_bytes(&bytes[1..]), None);
    }

    /// Each range of a good state, at its edge.
    #[test]
    fn a_state_is_good_or_not() {
        let (_, fresh) = State::start(Numbers::from([1, 2, 1, 1]));
        let changed = |place: usize, value: u8| {
            let mut bytes = fresh.bytes();
            bytes[place] = value;
            State::from_bytes(&bytes).unwrap().good()
        };
        assert!(changed(4, 255) && changed(4 + MEMORY - 1, 255));
        assert!(changed(1126, 63) && !changed(1126, 64));
        assert!(changed(1127, 1) && !changed(1127, 2));
        assert!(changed(1127 + 119, 1) && !changed(1127 + 120, 1) && !changed(STATE - 1, 1));
        assert!(!changed(0, 0) && !changed(1, 5) && !changed(2, 6) && !changed(3, 14));
    }
}
