//! What was sent: the packets that came back are coded again, which tells how many bits were wrong on the way.

use warintaya::{Coder, Layer, LayerName, Packet, Refusal, DELAY, PACKET, SLOT};

/// Goes along with the frames that a layer receives.
pub struct Sent {
    coder: Coder,
    /// Whether the coder stands behind the frame before: only then it gives the carriers that were sent.
    known: bool,
    /// The packets of a frame's that have come, and its carriers.
    packets: Vec<u8>,
    received: Vec<u8>,
    /// The carriers coded again.
    again: Vec<u8>,
    count: usize,
}

impl Sent {
    pub fn new(layer: Layer) -> Sent {
        Sent {
            coder: Coder::new(layer),
            known: false,
            packets: Vec::new(),
            received: Vec::new(),
            again: vec![0; layer.carriers()],
            count: layer.packets(),
        }
    }

    /// Takes a frame's carriers and the slots that came with it, and gives the number of wrong bits of the frame before. It is known
    /// where all packets of that frame and of the one before it have come.
    pub fn frame(&mut self, carriers: &[u8], slots: &[u8]) -> Result<Option<u64>, Refusal> {
        // the last packets of a frame come with the next one, unless this is the first that a receiver takes
        let late = (slots.len() / SLOT).saturating_sub(self.count - DELAY);
        let (before, own) = slots.split_at(SLOT * late);
        self.packets.extend(came(before));
        let wrong = self.wrong()?;
        self.packets.clear();
        self.packets.extend(came(own));
        self.received.clear();
        self.received.extend(carriers);
        Ok(wrong)
    }

    /// Codes the frame again whose packets have come, and counts the bits that differ.
    fn wrong(&mut self) -> Result<Option<u64>, Refusal> {
        let known = self.known;
        self.known = self.packets.len() == self.count * PACKET;
        if !self.known {
            return Ok(None);
        }
        self.coder
            .code(LayerName::A, &self.packets, &mut self.again)?;
        let pairs = self.again.iter().zip(&self.received);
        let wrong = pairs.map(|(sent, received)| u64::from((sent ^ received).count_ones()));
        Ok(known.then(|| wrong.sum()))
    }
}

/// The bytes of the packets that came, without those that were lost.
fn came(slots: &[u8]) -> impl Iterator<Item = u8> + '_ {
    let packets = slots.chunks_exact(SLOT).filter_map(Packet::read);
    let came = packets.filter_map(|packet| match packet {
        Packet::Corrected(_, packet) => Some(packet),
        Packet::WrongStart | Packet::Lost => None,
    });
    came.flatten().copied()
}
