//! A sender and a receiver, and what happens to the frames between them.

use second::frame::{Frame, PACKET};
use second::layer::Numbers;
use second::random::Random;
use second::receiving::SLOT;
use second::state::State;

use crate::cases::code::{packets, Contents};
use crate::check::{Check, Checked};
use crate::expected;
use crate::records::Record;

/// A sender of one layer, and what a receiver has of it, which stands in a record.
pub struct Link {
    numbers: [u8; 4],
    pub coding: State,
    /// All packets sent, and how many have come out.
    sent: Vec<u8>,
    came: usize,
    /// Nothing was disturbed so far, so that what comes out is what was sent.
    clean: bool,
}

/// What happens to a frame on its way.
#[derive(Clone, Copy, Debug)]
pub enum Way {
    Undisturbed,
    /// So many of a thousand carrier bits are wrong.
    Wrong(u64),
    /// So many runs of so many carriers are random.
    Bursts(usize, usize),
    Complemented,
    Random,
    /// Every third packet sent begins with another byte than 47; so many of a thousand bits are wrong.
    Headless(u64),
}

impl Way {
    /// One of those that disturb, up to 8 % of the bits wrong most often.
    pub fn disturbing(random: &mut Random) -> Self {
        match random.below(8) {
            0..=2 => Way::Wrong(1 + random.below(20)),
            3 | 4 => Way::Wrong(1 + random.below(80)),
            5 => Way::Bursts(1 + random.below(12) as usize, 200),
            6 => Way::Headless(1 + random.below(30)),
            _ => [Way::Complemented, Way::Random][random.below(2) as usize],
        }
    }

    /// Whether bits are wrong on this way.
    fn disturbs(self) -> bool {
        !matches!(self, Way::Undisturbed | Way::Wrong(0) | Way::Headless(0))
    }
}

impl Link {
    /// At its start.
    pub fn new(numbers: [u8; 4]) -> Self {
        Link {
            numbers,
            coding: State::start(Numbers::from(numbers)).1,
            sent: Vec::new(),
            came: 0,
            clean: true,
        }
    }

    /// The carriers of the next frame, from random packets. The second program's machines code a packet whatever it begins with.
    fn carriers(&mut self, check: &mut Check, headless: bool) -> Vec<u8> {
        let count = expected::sizes(self.numbers).0;
        let mut packets = packets(&mut check.random, count, Contents::Random);
        for packet in packets.chunks_mut(PACKET).step_by(3) {
            if headless {
                packet[0] ^= 1 + check.random.below(255) as u8;
            }
        }
        let mut frame = Frame::new(&self.coding);
        let mut carriers = Vec::new();
        for packet in packets.chunks(PACKET) {
            frame.packet(packet, &mut carriers);
        }
        self.coding = frame.state_after(&self.coding);
        self.sent.extend(packets);
        carriers
    }

    /// The next frame on its way, and back into the layer that the record names.
    pub fn frame(
        &mut self,
        check: &mut Check,
        record: &mut Record,
        what: &str,
        way: Way,
    ) -> Checked {
        let mut carriers = self.carriers(check, matches!(way, Way::Headless(_)));
        disturb(check, self.numbers[1], &mut carriers, way);
        check.case(format!(
            "settings {:?}, {what}, {way:?}, packets from {} on",
            self.numbers, self.came
        ));
        let count = expected::sizes(self.numbers).0;
        let first = record.at(record.layer)[4] == 0;
        let back = check.back(record, &carriers, SLOT * count)?;
        check.meant(back.answer, 0)?;
        let given = if first { count - 12 } else { count };
        check.meant_given(back.slots.len() / SLOT, given)?;
        if way.disturbs() {
            check.counts.disturbed();
        }
        *record = back.record;
        self.clean &= matches!(way, Way::Undisturbed);
        if self.clean {
            self.as_sent(check, &back.slots)?;
        }
        self.came += given;
        Ok(())
    }

    /// Every slot says that nothing was corrected, and has the packet sent.
    fn as_sent(&self, check: &Check, slots: &[u8]) -> Checked {
        for (number, slot) in slots.chunks(SLOT).enumerate() {
            let packet = &self.sent[PACKET * (self.came + number)..][..PACKET];
            check.same("the number corrected", &slot[..1], &[0])?;
            check.same("the packet sent", &slot[1..], packet)?;
        }
        Ok(())
    }
}

/// Spoils carriers.
fn disturb(check: &mut Check, v: u8, carriers: &mut [u8], way: Way) {
    let random = &mut check.random;
    match way {
        Way::Undisturbed => {}
        Way::Wrong(often) | Way::Headless(often) => {
            for carrier in carriers {
                for bit in 0..v {
                    *carrier ^= u8::from(random.below(1000) < often) << bit;
                }
            }
        }
        Way::Bursts(count, length) => {
            for _ in 0..count {
                let at = random.below((carriers.len() - length) as u64) as usize;
                for carrier in &mut carriers[at..at + length] {
                    *carrier = random.below(1 << v) as u8;
                }
            }
        }
        Way::Complemented => carriers
            .iter_mut()
            .for_each(|carrier| *carrier ^= (1 << v) - 1),
        Way::Random => carriers
            .iter_mut()
            .for_each(|carrier| *carrier = random.below(1 << v) as u8),
    }
}
