//! An area that is lent to a door, with guard bytes on either side.

/// The fewest guard bytes on a side.
const GUARD: usize = 64;

/// A lent area. What stands in front of it and behind it has to stay as it is.
pub struct Lent {
    bytes: Vec<u8>,
    before: usize,
    length: usize,
}

/// The guard byte of a place: above every carrier's value, and unlike its neighbours.
fn guard(place: usize) -> u8 {
    0x80 | (place * 37 % 128) as u8
}

impl Lent {
    /// Lends a copy, `shift` bytes further on than another would be: no door may ask for an alignment.
    pub fn new(content: &[u8], shift: usize) -> Self {
        let before = GUARD + shift % 16;
        let length = content.len();
        let mut bytes: Vec<u8> = (0..before + length + GUARD).map(guard).collect();
        bytes[before..before + length].copy_from_slice(content);
        Lent {
            bytes,
            before,
            length,
        }
    }

    pub fn pointer(&mut self) -> *mut u8 {
        self.bytes[self.before..].as_mut_ptr()
    }

    pub fn len(&self) -> usize {
        self.length
    }

    /// Says where the area, or what is around it, is not as it should be.
    pub fn compare(&self, name: &str, expected: &[u8]) -> Result<(), String> {
        let end = self.before + self.length;
        for (place, &byte) in self.bytes.iter().enumerate() {
            let inside = (self.before..end).contains(&place);
            let should = if inside {
                expected[place - self.before]
            } else {
                guard(place)
            };
            if byte == should {
                continue;
            }
            let where_ = match (inside, place < self.before) {
                (true, _) => format!("byte {} of the {name}", place - self.before),
                (false, true) => format!("byte {} before the {name}", self.before - place),
                (false, false) => format!("byte {} behind the {name}", place - end + 1),
            };
            return Err(format!("{where_} is {byte} and should be {should}"));
        }
        Ok(())
    }
}
