//! A layer's four numbers: what refuses them, and the sizes that they give.

use crate::table4::{DATA_CARRIERS, PACKETS, SYMBOLS};

/// The numbers with which a layer is started, legal or not.
#[derive(Clone, Copy, Debug, PartialEq)]
pub struct Numbers {
    pub mode: u8,
    pub bits: u8,
    pub rate: u8,
    pub segments: u8,
}

/// The sizes of a frame.
pub struct Sizes {
    pub packets: u32,
    pub carriers: u32,
}

/// Where a number stands among those that are legal.
fn place(legal: &[u8], number: u8) -> Option<usize> {
    legal.iter().position(|&l| l == number)
}

impl From<[u8; 4]> for Numbers {
    /// In the order in which they are written everywhere.
    fn from([mode, bits, rate, segments]: [u8; 4]) -> Self {
        Numbers {
            mode,
            bits,
            rate,
            segments,
        }
    }
}

impl Numbers {
    /// The sizes, read from the tables, or the number of the refusal.
    pub fn sizes(self) -> Result<Sizes, u8> {
        let mode = place(&[1, 2, 3], self.mode).ok_or(1)?;
        let modulation = place(&[2, 4, 6], self.bits).ok_or(2)?;
        let rate = place(&[1, 2, 3, 4, 5], self.rate).ok_or(3)?;
        if self.segments == 0 || self.segments > 13 {
            return Err(4);
        }
        let segments = u32::from(self.segments);
        Ok(Sizes {
            packets: PACKETS[rate][modulation][mode] * segments,
            carriers: DATA_CARRIERS[mode] * SYMBOLS * segments,
        })
    }

    /// Rule 6: by how many carriers each line of bits is delayed, line 0 first. Only for 2, 4 or 6 bits.
    pub fn line_lengths(self) -> Vec<usize> {
        let last = usize::from(self.bits) - 1;
        (0..=last).map(|line| line * 120 / last).collect()
    }
}
