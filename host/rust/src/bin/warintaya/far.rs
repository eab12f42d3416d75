//! How far a run is, in words.

use std::iter::Sum;
use std::time::Duration;

use warintaya::PACKET;

use crate::told::counted;

/// What has come through so far.
#[derive(Clone, Copy, Debug, Default, PartialEq)]
pub struct SoFar {
    pub packets: u64,
    /// Packets lost and bytes corrected, where packets are received.
    pub lost: Option<u64>,
    pub corrected: Option<u64>,
}

/// The sum of two numbers that may not be there.
fn both(one: Option<u64>, other: Option<u64>) -> Option<u64> {
    one.zip(other)
        .map(|(one, other)| one + other)
        .or(one)
        .or(other)
}

impl Sum for SoFar {
    fn sum<I: Iterator<Item = SoFar>>(each: I) -> SoFar {
        each.fold(SoFar::default(), |sum, one| SoFar {
            packets: sum.packets + one.packets,
            lost: both(sum.lost, one.lost),
            corrected: both(sum.corrected, one.corrected),
        })
    }
}

/// How far a run is.
#[derive(Clone, Copy)]
pub struct Far {
    pub frames: u64,
    /// The bytes that have been read, and those that there are in all if that is known.
    pub bytes: u64,
    pub whole: Option<u64>,
    pub so_far: SoFar,
    /// The time that has gone by.
    pub gone: Duration,
}

/// A time that has still to go by, as one says it.
fn time(seconds: u64) -> String {
    match seconds {
        0..=59 => format!("{seconds} s"),
        60..=3599 => format!("{} min {:02} s", seconds / 60, seconds % 60),
        _ => format!("{} h {:02} min", seconds / 3600, seconds / 60 % 60),
    }
}

impl Far {
    /// Millions of packets' bits a second, with a digit behind the point.
    fn speed(&self) -> Option<String> {
        let bits = u128::from(self.so_far.packets) * (PACKET * 8) as u128;
        let tenths = (bits * 10).checked_div(self.gone.as_micros())?;
        let told = bits > 0;
        told.then(|| format!("{}.{} Mbit/s", tenths / 10, tenths % 10))
    }

    /// The bytes that are done and that there are, where both are known.
    fn known(&self) -> Option<(u64, u64)> {
        let whole = self.whole.filter(|_| self.bytes > 0)?;
        (whole > 0).then_some((self.bytes.min(whole), whole))
    }

    /// The time left, if it goes on as it went.
    fn left(&self) -> Option<String> {
        let (done, whole) = self.known()?;
        let share = u128::from(whole - done) * self.gone.as_millis() / u128::from(done);
        let seconds = u64::try_from(share / 1000).unwrap_or(u64::MAX);
        Some(format!("{} left", time(seconds)))
    }

    /// A line of words, of so many characters at most.
    pub fn words(&self, command: &str, most: usize) -> String {
        let SoFar {
            lost, corrected, ..
        } = self.so_far;
        let part = self.known().map(|(done, whole)| {
            let part = u128::from(done) * 100 / u128::from(whole);
            format!("{part} %")
        });
        let parts = [
            Some(counted(self.frames, "frame")),
            part,
            self.left(),
            self.speed(),
            lost.map(|lost| format!("{lost} lost")),
            corrected.map(|bytes| format!("{} corrected", counted(bytes, "byte"))),
        ];
        let parts: Vec<String> = parts.into_iter().flatten().collect();
        let line = format!("{command}: {}", parts.join(", "));
        line.chars().take(most).collect()
    }
}

#[cfg(test)]
mod tests {
    use super::*;

    const FAR: Far = Far {
        frames: 40,
        bytes: 2_500,
        whole: Some(10_000),
        so_far: SoFar {
            packets: 10_000,
            lost: None,
            corrected: None,
        },
        gone: Duration::from_millis(4_000),
    };

    #[test]
    fn what_is_known_is_told() {
        let all = "code: 40 frames, 25 %, 12 s left, 3.7 Mbit/s";
        assert_eq!(FAR.words("code", 79), all);
        let live = Far { whole: None, ..FAR };
        assert_eq!(live.words("code", 79), "code: 40 frames, 3.7 Mbit/s");
        let so_far = SoFar {
            lost: Some(1),
            corrected: Some(20),
            ..FAR.so_far
        };
        let back = Far { so_far, ..FAR };
        assert_eq!(
            back.words("back", 79),
            "back: 40 frames, 25 %, 12 s left, 3.7 Mbit/s, 1 lost, 20 bytes corrected"
        );
    }

    /// Nothing is divided by nothing, and files that grow while they are read are done at most whole.
    #[test]
    fn a_run_that_has_hardly_begun_or_never_ends() {
        let begun = Far {
            frames: 1,
            bytes: 0,
            so_far: SoFar::default(),
            gone: Duration::ZERO,
            ..FAR
        };
        assert_eq!(begun.words("code", 79), "code: 1 frame");
        let beyond = Far {
            bytes: 20_000,
            ..FAR
        };
        assert!(beyond
            .words("code", 79)
            .ends_with("100 %, 0 s left, 3.7 Mbit/s"));
        let long = Far {
            bytes: u64::MAX / 2,
            whole: Some(u64::MAX),
            gone: Duration::from_secs(3_725),
            ..FAR
        };
        assert!(long
            .words("code", 79)
            .ends_with("49 %, 1 h 02 min left, 0.0 Mbit/s"));
    }

    #[test]
    fn a_line_is_cut_to_its_columns() {
        assert_eq!(FAR.words("code", 10), "code: 40 f");
        assert_eq!(FAR.words("code", 0), "");
    }

    #[test]
    fn times_and_sums() {
        let said = [0, 59, 60, 3599, 3600, 90_061].map(time);
        let told = [
            "0 s",
            "59 s",
            "1 min 00 s",
            "59 min 59 s",
            "1 h 00 min",
            "25 h 01 min",
        ];
        assert_eq!(said, told);
        let one = SoFar {
            packets: 3,
            lost: Some(1),
            corrected: Some(2),
        };
        let sum: SoFar = [one, SoFar::default(), one].into_iter().sum();
        assert_eq!(
            (sum.packets, sum.lost, sum.corrected),
            (6, Some(2), Some(4))
        );
        let none: SoFar = [FAR.so_far, FAR.so_far].into_iter().sum();
        assert_eq!((none.packets, none.lost), (20_000, None));
    }
}
