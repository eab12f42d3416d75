//! The bytes of an input that have been read and not yet taken.

use crate::failure::Outcome;
use crate::files::Input;

#[derive(Default)]
pub struct Ahead {
    held: Vec<u8>,
    /// How many of those that are held have been taken.
    taken: usize,
    ended: bool,
    place: u64,
}

impl Ahead {
    /// Reads on until at least so many bytes stand ahead, or the input ends, and gives all that do.
    pub fn look(&mut self, input: &mut Input, count: usize) -> Outcome<&[u8]> {
        if self.bytes().len() < count && !self.ended {
            self.held.drain(..self.taken);
            self.taken = 0;
            let have = self.held.len();
            self.held.resize(count, 0);
            let filled = input.fill(&mut self.held[have..])?;
            self.held.truncate(have + filled);
            self.ended = self.held.len() < count;
        }
        Ok(self.bytes())
    }

    /// What stands ahead.
    pub fn bytes(&self) -> &[u8] {
        &self.held[self.taken..]
    }

    /// Whether the input ends behind what stands ahead.
    pub fn ended(&self) -> bool {
        self.ended
    }

    /// The place in the input of the next byte to take.
    pub fn place(&self) -> u64 {
        self.place
    }

    /// Takes so many bytes, or all that there are.
    pub fn take(&mut self, count: usize) {
        let count = count.min(self.bytes().len());
        self.taken += count;
        self.place += count as u64;
    }
}
