//! The packets of a frame that is coded already, read back from its carriers, and the replacement that looks at them first.

use std::error::Error;
use std::fmt;

use crate::{Coder, Layer, LayerName, Packet, Receiver, Refusal, Station, DELAY, PACKET, SYNC};

/// Why a packet of a coded frame was not read, or not replaced. Nothing has been altered then.
#[derive(Clone, Copy, Debug, PartialEq, Eq, Hash)]
pub enum NotReplaced {
    /// The call is refused.
    Refused(Refusal),
    /// The carriers, and what stands behind them, don't give back this packet of the frame as it was coded: they are damaged, or
    /// not of one frame.
    NotTogether {
        /// The first packet that doesn't come back, by its number in the frame.
        packet: usize,
    },
    /// Another packet was coded than the one that is to be replaced.
    OtherPacket {
        /// The first byte in which the two differ, counted from 0.
        byte: usize,
        /// The number in the frame of a packet that is the one to be replaced, if there is one.
        found: Option<usize>,
    },
}

impl fmt::Display for NotReplaced {
    /// In one line.
    fn fmt(&self, formatter: &mut fmt::Formatter<'_>) -> fmt::Result {
        match self {
            NotReplaced::Refused(refusal) => refusal.fmt(formatter),
            NotReplaced::NotTogether { packet } => write!(
                formatter,
                "packet {packet} of the frame can't be read back: the carriers and the record are not of one frame"
            ),
            NotReplaced::OtherPacket { byte, found } => {
                write!(
                    formatter,
                    "another packet was coded there: byte {byte} differs"
                )?;
                match found {
                    Some(number) => write!(formatter, ", and the old one is packet {number}"),
                    None => Ok(()),
                }
            }
        }
    }
}

impl Error for NotReplaced {}

impl From<Refusal> for NotReplaced {
    fn from(refusal: Refusal) -> NotReplaced {
        NotReplaced::Refused(refusal)
    }
}

/// How many bytes a receiver that joins at a frame may have to correct in a packet of it: it doesn't know the bits before the
/// frame, which reach into the first byte of the first word alone.
const fn most_corrected(number: usize) -> u8 {
    match number {
        0 => 1,
        _ => 0,
    }
}

impl Station {
    /// The P packets of a layer's frame, one behind the other, from its carriers and those of the frame that was coded behind it.
    ///
    /// A fresh receiver takes both frames: the first gives all but [`DELAY`] of the packets, the second the rest. What was coded
    /// comes back with no byte corrected, but for one at most in packet 0.
    ///
    /// # Errors
    ///
    /// In this order: [`Refusal::LayerUnused`] if the layer isn't used, [`Refusal::CarriersLength`] if one of the two isn't C long,
    /// [`Refusal::Value`] if a carrier is 2^v or more, [`NotReplaced::NotTogether`] if the two aren't frames coded one behind the
    /// other.
    pub fn coded_packets(
        self,
        layer: LayerName,
        carriers: &[u8],
        next: &[u8],
    ) -> Result<Vec<u8>, NotReplaced> {
        let mut receiver = Receiver::new(self);
        let first = receiver.receive(layer, carriers)?;
        let second = receiver.receive(layer, next)?;
        let mut packets = Vec::new();
        let slots = first.packets().chain(second.packets().take(DELAY));
        for (number, slot) in slots.enumerate() {
            match slot {
                Packet::Corrected(bytes, packet) if bytes <= most_corrected(number) => {
                    packets.extend(packet)
                }
                _ => return Err(NotReplaced::NotTogether { packet: number }),
            }
        }
        Ok(packets)
    }
}

/// Packet `number` of some packets.
fn packet_at(packets: &[u8], number: usize) -> &[u8] {
    &packets[PACKET * number..][..PACKET]
}

/// Compares the packet that was coded as `number` with the one that is to be replaced.
pub(crate) fn compared(packets: &[u8], number: usize, old: &[u8]) -> Result<(), NotReplaced> {
    let pairs = packet_at(packets, number).iter().zip(old);
    match pairs.enumerate().find(|(_, (coded, old))| coded != old) {
        None => Ok(()),
        Some((byte, _)) => Err(NotReplaced::OtherPacket {
            byte,
            found: packets.chunks(PACKET).position(|packet| packet == old),
        }),
    }
}

impl Coder {
    /// The P packets of the frame that was coded last in a layer, one behind the other, from its carriers and the record behind
    /// it: a copy of the record codes any next frame, and [`Station::coded_packets`] takes both.
    ///
    /// # Errors
    ///
    /// In this order: [`Refusal::LayerUnused`] if the layer isn't used, [`Refusal::CarriersLength`] if `carriers` isn't C long,
    /// [`Refusal::Value`] if a carrier is 2^v or more, [`NotReplaced::NotTogether`] if carriers and record aren't of one frame.
    pub fn coded_packets(&self, layer: LayerName, carriers: &[u8]) -> Result<Vec<u8>, NotReplaced> {
        let station = self.station();
        let count = station.layer(layer).map_or(0, Layer::packets);
        let mut next = vec![0; carriers.len()];
        let mut any = [0; PACKET];
        any[0] = SYNC;
        self.clone().code(layer, &any.repeat(count), &mut next)?;
        station.coded_packets(layer, carriers, &next)
    }

    /// The packet that was coded as `number` in the frame that was coded last in a layer.
    ///
    /// ```
    /// use warintaya::{Coder, Layer, LayerName, NotReplaced, PACKET};
    ///
    /// let layer = Layer::new(1, 2, 1, 1)?;
    /// let mut packets = vec![0x47; PACKET * layer.packets()];
    /// packets[PACKET * 7 + 4..][..5].copy_from_slice(b"clock");
    /// let (mut coder, mut carriers) = (Coder::new(layer), vec![0; layer.carriers()]);
    /// coder.code(LayerName::A, &packets, &mut carriers)?;
    /// assert_eq!(coder.coded_packet(LayerName::A, &carriers, 7)?[4..9], *b"clock");
    /// # Ok::<(), NotReplaced>(())
    /// ```
    ///
    /// # Errors
    ///
    /// As [`Coder::coded_packets`], with [`Refusal::Number`] before [`Refusal::Value`] if `number` isn't below P.
    pub fn coded_packet(
        &self,
        layer: LayerName,
        carriers: &[u8],
        number: usize,
    ) -> Result<[u8; PACKET], NotReplaced> {
        let settings = self.station().layer(layer).ok_or(Refusal::LayerUnused)?;
        if carriers.len() != settings.carriers() {
            return Err(Refusal::CarriersLength.into());
        }
        if number >= settings.packets() {
            return Err(Refusal::Number.into());
        }
        let packets = self.coded_packets(layer, carriers)?;
        let mut packet = [0; PACKET];
        packet.copy_from_slice(packet_at(&packets, number));
        Ok(packet)
    }

    /// Replaces packet `number` of the frame that was coded last in a layer, in its carriers and in the record behind it: both
    /// are then as if the frame had been coded with `new`. The layer's next frame goes on from there.
    ///
    /// It reads first which packet was coded there, as [`Coder::coded_packet`] does, and refuses an `old` that is another: replacing
    /// it would leave a frame with correct parity and a packet that nobody has written. Reading takes as long as receiving two
    /// frames; [`Coder::replace_unchecked`] does without.
    ///
    /// # Errors
    ///
    /// Those of [`Coder::replace_unchecked`], and then [`NotReplaced::NotTogether`] if carriers and record aren't of one frame,
    /// [`NotReplaced::OtherPacket`] if `old` isn't the packet that was coded.
    pub fn replace(
        &mut self,
        layer: LayerName,
        carriers: &mut [u8],
        number: usize,
        old: &[u8],
        new: &[u8],
    ) -> Result<(), NotReplaced> {
        let (mut after, mut altered) = (self.clone(), carriers.to_vec());
        after.replace_unchecked(layer, &mut altered, number, old, new)?;
        compared(&self.coded_packets(layer, carriers)?, number, old)?;
        carriers.copy_from_slice(&altered);
        *self = after;
        Ok(())
    }
}
