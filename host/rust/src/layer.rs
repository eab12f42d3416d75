//! A layer's settings, and the sizes of its frames.

use std::fmt;

use crate::{doors, Mode, Modulation, Rate, Refusal, CODING_RECORD, UNUSED};

/// The settings of a layer, legal ones only.
///
/// ```
/// use warintaya::{Layer, Refusal};
///
/// let layer = Layer::new(3, 6, 5, 13)?;
/// assert_eq!((layer.packets(), layer.carriers()), (3276, 1_018_368));
/// assert_eq!(layer.to_string(), "mode 3, 64QAM, rate 7/8, 13 segments");
/// assert_eq!(Layer::new(3, 6, 5, 14), Err(Refusal::Segments));
/// # Ok::<(), Refusal>(())
/// ```
#[derive(Clone, Copy, Debug, PartialEq, Eq, Hash)]
pub struct Layer {
    numbers: [u8; 4],
}

impl Layer {
    /// A layer of this mode (1 to 3), v bits of a carrier (2 QPSK, 4 16QAM, 6 64QAM), rate (1 to 5: 1/2, 2/3, 3/4, 5/6, 7/8) and
    /// number of segments (1 to 13).
    ///
    /// # Errors
    ///
    /// [`Refusal::Mode`], [`Refusal::Bits`], [`Refusal::Rate`], [`Refusal::Segments`], in this order.
    pub fn new(mode: u8, v: u8, rate: u8, segments: u8) -> Result<Layer, Refusal> {
        let settings = match [v, rate, segments] {
            // a start would take it as a layer that isn't used; with a segment it is refused for its v
            UNUSED => [0, 0, 1],
            settings => settings,
        };
        doors::start(mode, &[settings, UNUSED, UNUSED], &mut [0; CODING_RECORD])?;
        let numbers = [mode, v, rate, segments];
        Ok(Layer { numbers })
    }

    /// A layer of these settings by name, and a number of segments (1 to 13).
    ///
    /// # Errors
    ///
    /// [`Refusal::Segments`].
    pub fn of(
        mode: Mode,
        modulation: Modulation,
        rate: Rate,
        segments: u8,
    ) -> Result<Layer, Refusal> {
        Layer::new(mode.number(), modulation.number(), rate.number(), segments)
    }

    /// Every legal layer, 585 of them: by mode, then v, then rate, then segments.
    ///
    /// ```
    /// assert_eq!(warintaya::Layer::all().count(), 585);
    /// ```
    pub fn all() -> impl Iterator<Item = Layer> {
        let modes = 1..=3;
        let with_v = modes.flat_map(|mode| [2, 4, 6].map(|v| (mode, v)));
        let with_rate = with_v.flat_map(|(mode, v)| (1..=5).map(move |rate| (mode, v, rate)));
        with_rate.flat_map(|(mode, v, rate)| {
            (1..=13).filter_map(move |segments| Layer::new(mode, v, rate, segments).ok())
        })
    }

    /// P, the packets of a frame: 12 to 3,276.
    pub fn packets(self) -> usize {
        doors::packets(self.numbers)
    }

    /// C, the carriers of a frame and so its bytes: 19,584 to 1,018,368.
    pub fn carriers(self) -> usize {
        doors::carriers(self.numbers)
    }

    /// Mode, v, rate and segments, as a layer's part of a record begins with them.
    pub const fn numbers(self) -> [u8; 4] {
        self.numbers
    }

    /// The mode, 1 to 3.
    pub const fn mode(self) -> u8 {
        self.numbers[0]
    }

    /// The bits of a carrier: 2, 4 or 6.
    pub const fn v(self) -> u8 {
        self.numbers[1]
    }

    /// The number of the rate, 1 to 5.
    pub const fn rate(self) -> u8 {
        self.numbers[2]
    }

    /// The segments, 1 to 13.
    pub const fn segments(self) -> u8 {
        self.numbers[3]
    }

    /// The modulation.
    pub const fn modulation(self) -> Modulation {
        match self.v() {
            2 => Modulation::Qpsk,
            4 => Modulation::Qam16,
            _ => Modulation::Qam64,
        }
    }

    /// The rate of the convolutional code, by name.
    pub const fn code_rate(self) -> Rate {
        match self.rate() {
            1 => Rate::OneHalf,
            2 => Rate::TwoThirds,
            3 => Rate::ThreeQuarters,
            4 => Rate::FiveSixths,
            _ => Rate::SevenEighths,
        }
    }

    /// The name of the modulation: QPSK, 16QAM or 64QAM.
    pub const fn modulation_name(self) -> &'static str {
        self.modulation().name()
    }

    /// The rate as a fraction: 1/2, 2/3, 3/4, 5/6 or 7/8.
    pub const fn rate_name(self) -> &'static str {
        self.code_rate().name()
    }

    /// Its settings in words, without the mode.
    pub(crate) fn in_its_mode(self) -> String {
        let (modulation, rate) = (self.modulation_name(), self.rate_name());
        match self.segments() {
            1 => format!("{modulation}, rate {rate}, 1 segment"),
            segments => format!("{modulation}, rate {rate}, {segments} segments"),
        }
    }
}

impl fmt::Display for Layer {
    fn fmt(&self, formatter: &mut fmt::Formatter<'_>) -> fmt::Result {
        write!(formatter, "mode {}, {}", self.mode(), self.in_its_mode())
    }
}
