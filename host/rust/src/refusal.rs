//! Why a call was refused.

use std::error::Error;
use std::fmt;

/// Why a call was refused. Each has its number, and a call gives the first that applies, in the order that stands with it.
///
/// A refused call alters nothing that it was lent.
#[derive(Clone, Copy, Debug, PartialEq, Eq, Hash)]
#[repr(u8)]
pub enum Refusal {
    /// 1: the mode is not 1, 2 or 3.
    Mode = 1,
    /// 2: the bits of a carrier, v, are not 2, 4 or 6.
    Bits = 2,
    /// 3: the rate is not 1 to 5.
    Rate = 3,
    /// 4: the segments are not 1 to 13.
    Segments = 4,
    /// 5: an area of packets, slots or a word has the wrong length.
    Length = 5,
    /// 6: the area of carriers is not C long.
    CarriersLength = 6,
    /// 7: the record is not good.
    Record = 7,
    /// 8: a packet does not begin with 47 (hexadecimal).
    Sync = 8,
    /// 9: a packet's number or a word's place is not below P.
    Number = 9,
    /// 10: a carrier has a value of 2^v or more.
    Value = 10,
    /// 12: the segments of the three layers are more than 13 in all.
    TooManySegments = 12,
    /// 13: the layer that is named is not used.
    LayerUnused = 13,
}

impl Refusal {
    /// All of them, by their numbers.
    pub const ALL: [Refusal; 12] = [
        Refusal::Mode,
        Refusal::Bits,
        Refusal::Rate,
        Refusal::Segments,
        Refusal::Length,
        Refusal::CarriersLength,
        Refusal::Record,
        Refusal::Sync,
        Refusal::Number,
        Refusal::Value,
        Refusal::TooManySegments,
        Refusal::LayerUnused,
    ];

    /// Its number: 1 to 10, 12 or 13.
    ///
    /// ```
    /// assert_eq!(warintaya::Refusal::Sync.number(), 8);
    /// ```
    pub const fn number(self) -> u8 {
        self as u8
    }

    /// The refusal that has this number.
    ///
    /// ```
    /// use warintaya::Refusal;
    /// assert_eq!(Refusal::from_number(8), Some(Refusal::Sync));
    /// assert_eq!(Refusal::from_number(0), None);
    /// ```
    pub fn from_number(number: u8) -> Option<Refusal> {
        Refusal::ALL
            .into_iter()
            .find(|refusal| refusal.number() == number)
    }

    /// What is wrong, in plain words without the number.
    pub const fn words(self) -> &'static str {
        match self {
            Refusal::Mode => "the mode is not 1, 2 or 3",
            Refusal::Bits => "the bits of a carrier are not 2 (QPSK), 4 (16QAM) or 6 (64QAM)",
            Refusal::Rate => "the rate is not 1 to 5 (1/2, 2/3, 3/4, 5/6, 7/8)",
            Refusal::Segments => "the segments are not 1 to 13",
            Refusal::Length => "the packets, slots or words lent have the wrong length",
            Refusal::CarriersLength => "the carriers lent are not as many as a frame has",
            Refusal::Record => "the record is not good",
            Refusal::Sync => "a packet does not begin with 47",
            Refusal::Number => "the packet's number or the word's place is not in the frame",
            Refusal::Value => "a carrier has a value that is too large for its modulation",
            Refusal::TooManySegments => "the segments of all layers are more than 13",
            Refusal::LayerUnused => "the layer is not used",
        }
    }
}

impl fmt::Display for Refusal {
    /// The words, and the number behind them.
    fn fmt(&self, formatter: &mut fmt::Formatter<'_>) -> fmt::Result {
        write!(formatter, "{} (refusal {})", self.words(), self.number())
    }
}

impl Error for Refusal {}

#[cfg(test)]
mod tests {
    use super::*;

    /// The numbers are 1 to 10, 12 and 13, each has its refusal, and no two say the same.
    #[test]
    fn numbers_and_words_are_told_apart() {
        let numbers = (1..=10).chain([12, 13]);
        for (refusal, number) in Refusal::ALL.into_iter().zip(numbers) {
            assert_eq!(refusal.number(), number);
            assert_eq!(Refusal::from_number(refusal.number()), Some(refusal));
            let alike = |other: &Refusal| other.words() == refusal.words();
            assert_eq!(Refusal::ALL.into_iter().filter(alike).count(), 1);
        }
        for number in (14..=255).chain([0, 11]) {
            assert_eq!(Refusal::from_number(number), None);
        }
        assert_eq!(
            Refusal::Sync.to_string(),
            "a packet does not begin with 47 (refusal 8)"
        );
    }
}
