//! Guard intervals: the time of a frame on the air, and the bit rate of a layer's packets.

use std::fmt;
use std::time::Duration;

use warintaya::{Layer, PACKET};

use crate::failure::{Failure, Outcome};
use crate::options::{Kind, Options};

/// The option that names one.
pub const OPTION: (&str, Kind) = ("--guard", Kind::Value);

/// The symbols of a frame, and the time of one in mode 1 without its guard interval.
const SYMBOLS: u64 = 204;
const SYMBOL: Duration = Duration::from_micros(252);

/// A guard interval, by the part of a symbol in front of which it stands: one of so many.
#[derive(Clone, Copy, Debug, PartialEq, Eq)]
pub struct Guard(u64);

impl Guard {
    pub const ALL: [Guard; 4] = [Guard(4), Guard(8), Guard(16), Guard(32)];

    /// The one that is given, if one is.
    pub fn read(options: &Options) -> Outcome<Option<Guard>> {
        let written = match options.value(OPTION.0) {
            Some(written) => written.to_string_lossy(),
            None => return Ok(None),
        };
        let found = Guard::ALL
            .into_iter()
            .find(|guard| guard.to_string() == written);
        match found {
            Some(guard) => Ok(Some(guard)),
            None => {
                let known = Guard::ALL.map(|guard| guard.to_string()).join(", ");
                let what = format!("--guard is one of {known}, not {written}");
                Err(Failure::Usage(what))
            }
        }
    }

    /// The time of a frame in nanoseconds, which are whole for every mode and guard interval.
    fn nanoseconds(self, mode: u8) -> u64 {
        let symbol = SYMBOL.as_nanos() as u64;
        ((SYMBOLS * symbol) << (mode - 1)) * (self.0 + 1) / self.0
    }

    /// The time of a frame.
    pub fn frame(self, mode: u8) -> Duration {
        Duration::from_nanos(self.nanoseconds(mode))
    }

    /// The time of a frame in milliseconds, with all its digits.
    pub fn milliseconds(self, mode: u8) -> String {
        let time = self.nanoseconds(mode);
        let (whole, rest) = (time / 1_000_000, time % 1_000_000);
        let text = format!("{whole}.{rest:06}");
        text.trim_end_matches('0').trim_end_matches('.').to_string()
    }

    /// The bits a second of a layer's packets, rounded down.
    pub fn rate(self, layer: Layer) -> u64 {
        let bits = (layer.packets() * PACKET * 8) as u64;
        bits * 1_000_000_000 / self.nanoseconds(layer.mode())
    }
}

impl fmt::Display for Guard {
    fn fmt(&self, formatter: &mut fmt::Formatter<'_>) -> fmt::Result {
        write!(formatter, "1/{}", self.0)
    }
}

#[cfg(test)]
mod tests {
    use super::*;

    /// The times are exact: 204 symbols of 252, 504 or 1008 microseconds, and their guard intervals.
    #[test]
    fn times_of_frames() {
        let times = |mode| Guard::ALL.map(|guard| guard.milliseconds(mode));
        assert_eq!(times(1), ["64.26", "57.834", "54.621", "53.0145"]);
        assert_eq!(times(2), ["128.52", "115.668", "109.242", "106.029"]);
        assert_eq!(times(3), ["257.04", "231.336", "218.484", "212.058"]);
        assert_eq!(Guard(32).frame(1), Duration::from_nanos(53_014_500));
    }

    /// A segment's rate is the same in each mode, and is what the standard's tables have, in thousands of bits a second.
    #[test]
    fn rates_of_a_segment() {
        for (v, rate, known) in [
            (2, 1, [280, 312, 330, 340]),
            (4, 3, [842, 936, 991, 1021]),
            (6, 5, [1474, 1638, 1734, 1787]),
        ] {
            for mode in 1..=3 {
                let layer = Layer::new(mode, v, rate, 1).expect("legal settings");
                assert_eq!(Guard::ALL.map(|guard| guard.rate(layer) / 1000), known);
            }
        }
    }
}
