//! What is sent where there is no packet.

use warintaya::{PACKET, SYNC};

/// What a padding packet says of itself.
const NAME: &[u8] = b"Warintaya padding";

/// A null packet (identifier 1FFF, which receivers pass over) that names itself, so that `back` knows it again.
pub fn padding() -> [u8; PACKET] {
    let mut packet = [0xFF; PACKET];
    packet[..4].copy_from_slice(&[SYNC, 0x1F, 0xFF, 0x10]);
    packet[4..4 + NAME.len()].copy_from_slice(NAME);
    packet
}
