//! The entries of document 01, each with its refusals in the paper's order. A refused call leaves the state and every lent area
//! as they were.

use crate::frame::{Frame, PACKET, SYNC, WORD};
use crate::machines::{ByteInterleaver, Dispersal};
use crate::state::State;
use crate::table::Table;

/// The most packets that a frame has.
const MOST_PACKETS: usize = 3276;

/// The dispersal sequence of the longest frame, by the generator run through it once.
static SEQUENCE: Table<Vec<u8>> = Table::new(|| {
    let mut generator = Dispersal::new();
    (0..WORD * MOST_PACKETS).map(|_| generator.byte()).collect()
});

/// The packets and carriers of a frame of a good state.
fn sizes(state: &State) -> (usize, usize) {
    let sizes = state.numbers.sizes().expect("legal settings");
    (sizes.packets as usize, sizes.carriers as usize)
}

/// Disperses a word for its place in the frame and byte-interleaves it, from one lent word into another: 7, 5, 9 or 0, and the
/// state after it.
pub fn disperse_interleave(
    state: &State,
    place: usize,
    word: &[u8],
    out: &mut [u8],
) -> (u8, State) {
    if !state.good() {
        return (7, state.clone());
    }
    if word.len() != WORD || out.len() != WORD {
        return (5, state.clone());
    }
    if place >= sizes(state).0 {
        return (9, state.clone());
    }
    // the sync byte at the word's end is passed over
    out.copy_from_slice(word);
    for (byte, sequence) in out[..WORD - 1].iter_mut().zip(&SEQUENCE[WORD * place..]) {
        *byte ^= sequence;
    }
    let mut branches = ByteInterleaver::new(&state.memory);
    branches.word(out);
    let mut after = state.clone();
    after.memory = branches.memory();
    (0, after)
}

/// The first 203 bytes of a word with the dispersal of its place taken off.
pub fn dispersed_off(place: usize, word: &[u8]) -> Vec<u8> {
    let bytes = word[..WORD - 1].iter().zip(&SEQUENCE[WORD * place..]);
    bytes.map(|(byte, sequence)| byte ^ sequence).collect()
}

/// Why a frame is not coded, or 0.
fn refusal(state: &State, packets: &[u8], carriers: &[u8]) -> u8 {
    if !state.good() {
        return 7;
    }
    let (count, carrier_count) = sizes(state);
    if packets.len() != PACKET * count {
        return 5;
    }
    if carriers.len() != carrier_count {
        return 6;
    }
    if packets.chunks(PACKET).any(|packet| packet[0] != SYNC) {
        return 8;
    }
    0
}

/// Codes a frame into its carriers: 7, 5, 6, 8 or 0, and the state after it.
pub fn code(state: &State, packets: &[u8], carriers: &mut [u8]) -> (u8, State) {
    let number = refusal(state, packets, carriers);
    if number != 0 {
        return (number, state.clone());
    }
    let mut frame = Frame::new(state);
    let mut coded = Vec::with_capacity(carriers.len());
    for packet in packets.chunks(PACKET) {
        frame.packet(packet, &mut coded);
    }
    carriers.copy_from_slice(&coded);
    (0, frame.state_after(state))
}

/// Why a packet is not replaced, or 0.
fn replacing(state: &State, carriers: &[u8], number: usize, old: &[u8], new: &[u8]) -> u8 {
    if !state.good() {
        return 7;
    }
    let (count, carrier_count) = sizes(state);
    if carriers.len() != carrier_count {
        return 6;
    }
    if old.len() != PACKET || new.len() != PACKET {
        return 5;
    }
    if number >= count {
        return 9;
    }
    if carriers
        .iter()
        .any(|&value| value >> state.numbers.bits != 0)
    {
        return 10;
    }
    if old[0] != SYNC || new[0] != SYNC {
        return 8;
    }
    0
}

/// A frame of unlike packets from the fresh state, with this one in the place of packet `number`: carriers, and state.
fn frame_with(state: &State, number: usize, packet: &[u8]) -> (Vec<u8>, State) {
    let (count, carrier_count) = sizes(state);
    let mut packets: Vec<u8> = (0..count * PACKET)
        .map(|place| (place % 251) as u8)
        .collect();
    for packet in packets.chunks_mut(PACKET) {
        packet[0] = SYNC;
    }
    packets[PACKET * number..][..PACKET].copy_from_slice(packet);
    let mut carriers = vec![0; carrier_count];
    let (_, after) = code(&State::start(state.numbers).1, &packets, &mut carriers);
    (carriers, after)
}

/// The bytes of one where another two differ.
fn flip(bytes: &mut [u8], one: &[u8], other: &[u8]) {
    for ((byte, one), other) in bytes.iter_mut().zip(one).zip(other) {
        *byte ^= one ^ other;
    }
}

/// Replaces a packet in the carriers of a frame and in the state left behind it, by coding two frames that differ only in that
/// packet: 7, 6, 5, 9, 10, 8 or 0, and the state.
pub fn replace(
    state: &State,
    carriers: &mut [u8],
    number: usize,
    old: &[u8],
    new: &[u8],
) -> (u8, State) {
    let refusal = replacing(state, carriers, number, old, new);
    if refusal != 0 {
        return (refusal, state.clone());
    }
    let (old_carriers, old_state) = frame_with(state, number, old);
    let (new_carriers, new_state) = frame_with(state, number, new);
    flip(carriers, &old_carriers, &new_carriers);
    let mut after = state.clone();
    flip(&mut after.memory, &old_state.memory, &new_state.memory);
    flip(&mut after.lines, &old_state.lines, &new_state.lines);
    after.register ^= old_state.register ^ new_state.register;
    (0, after)
}
