//! The names of the three layers.

use std::fmt;
use std::str::FromStr;

use crate::Refusal;

/// One of the three layers of a record.
///
/// ```
/// use warintaya::LayerName;
///
/// assert_eq!(LayerName::from_letter('B'), Some(LayerName::B));
/// assert_eq!(LayerName::ALL.map(LayerName::letter), ['A', 'B', 'C']);
/// assert_eq!(LayerName::ALL.map(LayerName::number), [0, 1, 2]);
/// ```
#[derive(Clone, Copy, Debug, PartialEq, Eq, PartialOrd, Ord, Hash)]
#[repr(u8)]
pub enum LayerName {
    /// The first one.
    A = 0,
    /// The second one.
    B = 1,
    /// The third one.
    C = 2,
}

impl LayerName {
    /// All three, in their order.
    pub const ALL: [LayerName; 3] = [LayerName::A, LayerName::B, LayerName::C];

    /// The number by which the doors know it: 0, 1 or 2.
    pub const fn number(self) -> u8 {
        self as u8
    }

    /// The number as a place in lists of three, one entry a layer.
    pub const fn place(self) -> usize {
        self as usize
    }

    /// Its letter, a capital.
    pub const fn letter(self) -> char {
        match self {
            LayerName::A => 'A',
            LayerName::B => 'B',
            LayerName::C => 'C',
        }
    }

    /// The layer that has this letter, which is a capital.
    pub fn from_letter(letter: char) -> Option<LayerName> {
        let mut all = LayerName::ALL.into_iter();
        all.find(|name| name.letter() == letter)
    }
}

impl fmt::Display for LayerName {
    /// The letter.
    fn fmt(&self, formatter: &mut fmt::Formatter<'_>) -> fmt::Result {
        self.letter().fmt(formatter)
    }
}

impl FromStr for LayerName {
    type Err = Refusal;

    /// By the letter, a capital.
    fn from_str(text: &str) -> Result<LayerName, Refusal> {
        let mut all = LayerName::ALL.into_iter();
        let found = all.find(|name| text.len() == 1 && text.starts_with(name.letter()));
        found.ok_or(Refusal::LayerUnused)
    }
}
