//! Modes, modulations and rates by their names.

use std::fmt;
use std::str::FromStr;

use crate::Refusal;

/// The mode of a station, which says how many carriers a segment has.
///
/// ```
/// use warintaya::{Mode, Refusal};
///
/// assert_eq!("3".parse(), Ok(Mode::Three));
/// assert_eq!(Mode::Three.number(), 3);
/// assert_eq!("4".parse::<Mode>(), Err(Refusal::Mode));
/// ```
#[derive(Clone, Copy, Debug, PartialEq, Eq, PartialOrd, Ord, Hash)]
#[repr(u8)]
pub enum Mode {
    /// 96 carriers of a segment.
    One = 1,
    /// 192 carriers of a segment.
    Two = 2,
    /// 384 carriers of a segment.
    Three = 3,
}

/// How the bits of a carrier are sent; its number is v, how many there are.
///
/// ```
/// use warintaya::{Modulation, Refusal};
///
/// assert_eq!("64qam".parse(), Ok(Modulation::Qam64));
/// assert_eq!(Modulation::Qam64.number(), 6);
/// assert_eq!(Modulation::Qam64.to_string(), "64QAM");
/// assert_eq!("8psk".parse::<Modulation>(), Err(Refusal::Bits));
/// ```
#[derive(Clone, Copy, Debug, PartialEq, Eq, PartialOrd, Ord, Hash)]
#[repr(u8)]
pub enum Modulation {
    /// Two bits of a carrier.
    Qpsk = 2,
    /// Four bits of a carrier.
    Qam16 = 4,
    /// Six bits of a carrier.
    Qam64 = 6,
}

/// The rate of the convolutional code, message bits to bits sent.
///
/// ```
/// use warintaya::{Rate, Refusal};
///
/// assert_eq!("7/8".parse(), Ok(Rate::SevenEighths));
/// assert_eq!(Rate::SevenEighths.number(), 5);
/// assert_eq!("9/10".parse::<Rate>(), Err(Refusal::Rate));
/// ```
#[derive(Clone, Copy, Debug, PartialEq, Eq, PartialOrd, Ord, Hash)]
#[repr(u8)]
pub enum Rate {
    /// 1/2
    OneHalf = 1,
    /// 2/3
    TwoThirds = 2,
    /// 3/4
    ThreeQuarters = 3,
    /// 5/6
    FiveSixths = 4,
    /// 7/8
    SevenEighths = 5,
}

/// Numbers and names of a setting, both ways, for those that are legal.
macro_rules! setting {
    ($setting:ident, $refusal:ident, [$($variant:ident $name:literal),*]) => {
        impl $setting {
            /// All of them, in the order of their numbers.
            pub const ALL: &'static [$setting] = &[$($setting::$variant),*];

            /// The number by which a start knows it.
            pub const fn number(self) -> u8 {
                self as u8
            }

            /// The one that has this number, if there is one.
            pub fn from_number(number: u8) -> Option<$setting> {
                let mut all = $setting::ALL.iter().copied();
                all.find(|one| one.number() == number)
            }

            /// Its name, as it is shown.
            pub const fn name(self) -> &'static str {
                match self {
                    $($setting::$variant => $name),*
                }
            }
        }

        impl fmt::Display for $setting {
            /// The name.
            fn fmt(&self, formatter: &mut fmt::Formatter<'_>) -> fmt::Result {
                formatter.pad(self.name())
            }
        }

        impl FromStr for $setting {
            type Err = Refusal;

            /// By the name, with letters of either case.
            fn from_str(text: &str) -> Result<$setting, Refusal> {
                let mut all = $setting::ALL.iter().copied();
                let found = all.find(|one| one.name().eq_ignore_ascii_case(text));
                found.ok_or(Refusal::$refusal)
            }
        }
    };
}

setting!(Mode, Mode, [One "1", Two "2", Three "3"]);
setting!(Modulation, Bits, [Qpsk "QPSK", Qam16 "16QAM", Qam64 "64QAM"]);
setting!(Rate, Rate, [
    OneHalf "1/2", TwoThirds "2/3", ThreeQuarters "3/4", FiveSixths "5/6", SevenEighths "7/8"
]);

/// v, rate and segments of a layer, as [`Station::new`](crate::Station::new) takes them.
///
/// ```
/// use warintaya::{settings, Mode, Modulation, Rate, StartRefused, Station, UNUSED};
///
/// let small = settings(Modulation::Qpsk, Rate::TwoThirds, 1);
/// let large = settings(Modulation::Qam64, Rate::ThreeQuarters, 12);
/// let station = Station::new(Mode::One.number(), [small, large, UNUSED])?;
/// assert_eq!(station, Station::new(1, [[2, 2, 1], [6, 3, 12], UNUSED])?);
/// # Ok::<(), StartRefused>(())
/// ```
pub const fn settings(modulation: Modulation, rate: Rate, segments: u8) -> [u8; 3] {
    [modulation.number(), rate.number(), segments]
}
