//! What is counted of packets that were received.

use warintaya::Packet;

use crate::far::SoFar;
use crate::told::counted;

#[derive(Clone, Copy, Default)]
pub struct Counts {
    pub given: u64,
    pub written: u64,
    pub padding: u64,
    /// Bytes corrected, and packets with such bytes.
    corrected: u64,
    mended: u64,
    lost: u64,
    wrong_start: u64,
}

impl Counts {
    /// Counts a packet that was given.
    pub fn packet(&mut self, packet: Packet) {
        self.given += 1;
        match packet {
            Packet::Corrected(0, _) => {}
            Packet::Corrected(bytes, _) => {
                self.corrected += u64::from(bytes);
                self.mended += 1;
            }
            Packet::WrongStart => self.wrong_start += 1,
            Packet::Lost => self.lost += 1,
        }
    }

    /// Adds what was counted elsewhere.
    pub fn add(&mut self, more: &Counts) {
        self.given += more.given;
        self.written += more.written;
        self.padding += more.padding;
        self.corrected += more.corrected;
        self.mended += more.mended;
        self.lost += more.lost;
        self.wrong_start += more.wrong_start;
    }

    /// What was done with so many frames.
    pub fn words(&self, frames: usize) -> String {
        let (written, padding, wrong_start) = (self.written, self.padding, self.wrong_start);
        let (given, frames) = (
            counted(self.given, "packet"),
            counted(frames as u64, "frame"),
        );
        let corrected = counted(self.corrected, "byte");
        let [mended, lost] = [self.mended, self.lost].map(|count| counted(count, "packet"));
        format!(
            "{given} from {frames}, {written} written, {padding} of padding left out; {corrected} corrected in {mended}, \
             {lost} lost, {wrong_start} without 47"
        )
    }

    /// The counts of a frame as members of a JSON object.
    pub fn json(&self) -> String {
        let Counts {
            given,
            corrected,
            mended,
            lost,
            wrong_start,
            ..
        } = self;
        format!(
            "\"given\":{given},\"corrected\":{corrected},\"mended\":{mended},\"wrong_start\":{wrong_start},\"lost\":{lost}"
        )
    }

    /// How many packets could not be had, in words, if there are any.
    pub fn loss(&self) -> Option<String> {
        let lost = self.lost + self.wrong_start;
        let verb = if lost == 1 { "was" } else { "were" };
        let words = format!("{} {verb} lost", counted(lost, "packet"));
        let wrong = match self.wrong_start {
            0 => String::new(),
            wrong => format!(", {wrong} of them because they do not begin with 47"),
        };
        (lost > 0).then_some(words + &wrong)
    }

    /// What is told of it on the way.
    pub fn so_far(&self) -> SoFar {
        SoFar {
            packets: self.given,
            lost: Some(self.lost + self.wrong_start),
            corrected: Some(self.corrected),
        }
    }
}
