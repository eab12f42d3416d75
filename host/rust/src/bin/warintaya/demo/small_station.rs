//! A small station: its layers, and what it sends.

use warintaya::{Layer, Refusal, Station, PACKET, SYNC, UNUSED};

use super::noise::Noise;
use crate::failure::Outcome;

/// How many frames are sent, which of them is changed late, and the clock's packet in each.
pub const FRAMES: usize = 4;
pub const LATE: usize = 1;
pub const CLOCK: usize = 41;

/// The packet identifiers of pictures, guide and clock.
const PICTURES: u16 = 0x0100;
const GUIDE: u16 = 0x0012;
const TIME: u16 = 0x0014;

/// The lines of the guide, each with its packet.
const LINES: [(usize, &str); 3] = [
    (6, "19:00  News of the valley"),
    (7, "20:00  News of the country"),
    (MOVED, "18:30  The river, told by those who live on it"),
];

/// The line that is moved late: its packet, and what it then says.
pub const MOVED: usize = 38;
const MOVED_LINE: &str = "20:30  The river, told by those who live on it";

/// The mode, and v, rate and segments of the layers: before layer A grew, and then with too little room and with enough.
pub const MODE: u8 = 1;
pub const BEFORE: [[u8; 3]; 3] = [[2, 2, 1], [6, 3, 12], UNUSED];
pub const TOO_LARGE: [[u8; 3]; 3] = [[2, 2, 3], [6, 3, 12], UNUSED];
const GROWN: [[u8; 3]; 3] = [[2, 2, 3], [6, 3, 10], UNUSED];

/// A station whose layer A has grown from one segment to three.
pub struct SmallStation {
    pub station: Station,
    /// Layers A and B.
    pub layer: Layer,
    pub beside: Layer,
}

/// The head of a packet.
fn head(identifier: u16, number: usize) -> [u8; 4] {
    let [high, low] = identifier.to_be_bytes();
    // the payload begins a table, but for pictures
    let start = if identifier == PICTURES { 0 } else { 0x40 };
    [SYNC, start | high, low, 0x10 | (number % 16) as u8]
}

/// A packet with a payload, filled up.
fn packet(identifier: u16, number: usize, payload: &[u8]) -> [u8; PACKET] {
    let mut packet = [0xFF; PACKET];
    packet[..4].copy_from_slice(&head(identifier, number));
    packet[4..4 + payload.len()].copy_from_slice(payload);
    packet
}

/// Two digits, four bits each.
fn digits(number: usize) -> u8 {
    (number / 10 * 16 + number % 10) as u8
}

impl SmallStation {
    pub fn new() -> Outcome<SmallStation> {
        let layer = |[v, rate, segments]: [u8; 3]| Layer::new(MODE, v, rate, segments);
        Ok(SmallStation {
            station: Station::new(MODE, GROWN).map_err(Refusal::from)?,
            layer: layer(GROWN[0])?,
            beside: layer(GROWN[1])?,
        })
    }

    /// A clock that tells the time of a frame: a time and date table of the standard, with the day and the time.
    fn clock(&self, frame: usize) -> [u8; PACKET] {
        let second = 19 * 3600 - 3 + frame;
        let [hour, minute, second] = [second / 3600, second / 60 % 60, second % 60].map(digits);
        packet(
            TIME,
            0,
            &[0, 0x70, 0x70, 0x05, 0xEC, 0x3F, hour, minute, second],
        )
    }

    /// The clock that is coded with a frame: in the late frame it still tells the time of the frame before.
    pub fn coded_clock(&self, frame: usize) -> [u8; PACKET] {
        self.clock(if frame == LATE { LATE - 1 } else { frame })
    }

    /// The clock that the late frame should have.
    pub fn late_clock(&self) -> [u8; PACKET] {
        self.clock(LATE)
    }

    /// The line that is moved late: the packet that is coded, and the one that it should be.
    pub fn moved_line(&self) -> [[u8; PACKET]; 2] {
        let coded = LINES.into_iter().find(|(number, _)| *number == MOVED);
        let coded = coded.map_or("", |(_, line)| line);
        [coded, MOVED_LINE].map(|line| packet(GUIDE, MOVED, line.as_bytes()))
    }

    /// All packets of all frames of layer A.
    pub fn packets(&self) -> Vec<u8> {
        let mut noise = Noise::new(1);
        let mut packets = Vec::new();
        for frame in 0..FRAMES {
            for number in 0..self.layer.packets() {
                let line = LINES.into_iter().find(|(place, _)| *place == number);
                packets.extend(match line {
                    Some((_, line)) => packet(GUIDE, number, line.as_bytes()),
                    None if number == CLOCK => self.coded_clock(frame),
                    None => pictures(number, &mut noise),
                });
            }
        }
        packets
    }

    /// All packets of all frames of layer B.
    pub fn packets_beside(&self) -> Vec<u8> {
        let mut noise = Noise::new(2);
        let numbers = 0..FRAMES * self.beside.packets();
        let packets = numbers.flat_map(|number| pictures(number, &mut noise));
        packets.collect()
    }
}

/// A packet of pictures.
fn pictures(number: usize, noise: &mut Noise) -> [u8; PACKET] {
    let payload = [0; PACKET - 4].map(|_: u8| noise.below(256) as u8);
    packet(PICTURES, number, &payload)
}

/// The identifier of a packet.
fn identifier(packet: &[u8]) -> u16 {
    u16::from_be_bytes([packet[1] & 0x1F, packet[2]])
}

/// The guide of a frame's packets, in the order of time.
pub fn guide(packets: &[u8]) -> Vec<String> {
    let mut lines: Vec<String> = packets.chunks(PACKET).filter_map(guide_line).collect();
    lines.sort();
    lines
}

/// The line of the guide that a packet has.
fn guide_line(packet: &[u8]) -> Option<String> {
    let text = packet[4..].split(|&byte| byte == 0xFF).next()?;
    (identifier(packet) == GUIDE).then(|| String::from_utf8_lossy(text).into_owned())
}

/// The time that a packet tells.
pub fn clock_of(packet: &[u8]) -> Option<String> {
    let [hour, minute, second] = [packet[10], packet[11], packet[12]];
    (identifier(packet) == TIME).then(|| format!("{hour:02X}:{minute:02X}:{second:02X}"))
}
