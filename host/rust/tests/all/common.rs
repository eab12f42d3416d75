//! What the tests share: layers, stations, and packets by seed.

use second::random::Random;
use warintaya::{Layer, Station, PACKET, SYNC, UNUSED};

/// Layers of every mode, modulation and rate, small enough for the second program.
pub fn layers() -> Vec<Layer> {
    let numbers = [
        [1, 2, 1, 1],
        [1, 2, 2, 3],
        [1, 4, 3, 1],
        [1, 6, 4, 1],
        [1, 6, 5, 2],
        [2, 4, 2, 1],
        [3, 2, 5, 1],
    ];
    let layer = |[mode, v, rate, segments]: [u8; 4]| Layer::new(mode, v, rate, segments);
    numbers
        .map(|numbers| layer(numbers).expect("legal settings"))
        .to_vec()
}

/// Stations with those layers as A, B or C: one, two or three of them are used.
pub fn stations() -> Vec<Station> {
    let numbers = [
        (1, [[2, 1, 1], UNUSED, UNUSED]),
        (1, [[2, 2, 3], [4, 3, 1], [6, 4, 1]]),
        (1, [UNUSED, [6, 5, 2], UNUSED]),
        (2, [UNUSED, [4, 2, 1], [2, 1, 1]]),
        (3, [[2, 5, 1], UNUSED, [2, 1, 1]]),
    ];
    let station = |(mode, layers)| Station::new(mode, layers).expect("a legal station");
    numbers.map(station).to_vec()
}

/// So many random packets.
pub fn packets(random: &mut Random, count: usize) -> Vec<u8> {
    let mut packets = random.bytes(PACKET * count);
    packets
        .chunks_mut(PACKET)
        .for_each(|packet| packet[0] = SYNC);
    packets
}
