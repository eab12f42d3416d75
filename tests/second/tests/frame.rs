//! Whole frames, by laws that any coder by document 01's rules has.

use second::entries::code;
use second::frame::{Frame, PACKET};
use second::layer::Numbers;
use second::random::Random;
use second::state::{State, LINES};
use second::words::{hex, printed};

/// A fresh layer, and the packets and carriers of its frames.
fn layer(numbers: [u8; 4]) -> (State, usize, usize) {
    let numbers = Numbers::from(numbers);
    let sizes = numbers.sizes().ok().unwrap();
    (
        State::start(numbers).1,
        sizes.packets as usize,
        sizes.carriers as usize,
    )
}

fn random_packets(random: &mut Random, count: usize) -> Vec<u8> {
    let mut packets = random.bytes(PACKET * count);
    for packet in packets.chunks_mut(PACKET) {
        packet[0] = 0x47;
    }
    packets
}

/// A good state of random bytes.
fn random_state(random: &mut Random, numbers: [u8; 4]) -> State {
    let (mut state, _, _) = layer(numbers);
    state.memory = random.bytes(state.memory.len());
    state.register = random.below(64) as u8;
    for entry in &mut state.lines[..60 * usize::from(numbers[1])] {
        *entry = random.below(2) as u8;
    }
    state
}

fn coded(state: &State, packets: &[u8], carriers: usize) -> (Vec<u8>, State) {
    let mut area = vec![0xAA; carriers];
    let (number, after) = code(state, packets, &mut area);
    assert_eq!(number, 0);
    (area, after)
}

/// The packet of Figure 3.5 as packet 0: its word's bytes on branch 0 stand in word 0 of the stream, those on branch 11 in word
/// 11, as Figures 3.8 and 3.10 have them.
#[test]
fn the_printed_packet_in_a_frame() {
    let mut printed_packet = hex("47 01 01 20 B7 10 09 F5 D7 8C 00 FB");
    printed_packet.resize(PACKET, 0xFF);
    let [_, dispersed] = printed();
    let figure = hex(include_str!(
        "../../vectors/figure-3-10-interleaved-word.hex"
    ));
    let (state, _, _) = layer([3, 2, 1, 1]);
    let mut frame = Frame::new(&state);
    let first = frame.stream_word(&printed_packet);
    let others = random_packets(&mut Random::new(1), 11);
    let last = others
        .chunks(PACKET)
        .map(|packet| frame.stream_word(packet))
        .last()
        .unwrap();
    for place in 0..204 {
        match place % 12 {
            0 => assert_eq!(first[place], dispersed[place]),
            11 => assert_eq!(last[place], figure[place]),
            _ => assert_eq!(first[place], 0),
        }
    }
}

/// A fresh frame's first carriers at QPSK 1/2, by hand. Word 0 begins, dispersed, with 00 + 03 on branch 0, and the eleven bytes
/// after it are the zeros of the memory: message bits 00000011 and then zeros. X in line 0 comes at once, Y after 120 carriers.
#[test]
fn the_first_carriers_by_hand() {
    let (state, count, size) = layer([1, 2, 1, 1]);
    let mut packets = vec![0; PACKET * count];
    packets
        .chunks_mut(PACKET)
        .for_each(|packet| packet[0] = 0x47);
    let (carriers, _) = coded(&state, &packets, size);
    let x: Vec<u8> = carriers.iter().take(20).map(|value| value >> 1).collect();
    let y: Vec<u8> = carriers
        .iter()
        .skip(120)
        .take(20)
        .map(|value| value & 1)
        .collect();
    // 1 1 through the taps 0, 1, 2, 3, 6 and through 0, 2, 3, 5, 6, each sum modulo 2
    assert_eq!(
        x,
        [0, 0, 0, 0, 0, 0, 1, 0, 0, 0, 1, 0, 1, 1, 0, 0, 0, 0, 0, 0]
    );
    assert_eq!(
        y,
        [0, 0, 0, 0, 0, 0, 1, 1, 1, 0, 1, 1, 0, 1, 0, 0, 0, 0, 0, 0]
    );
    assert!(carriers.iter().take(120).all(|value| value & 1 == 0));
}

/// In every setting a frame of random packets fills its carriers, the register is left with the six lowest bits of 47, the newest
/// highest, and the state after it is good.
#[test]
fn every_setting_fills_its_frame() {
    let mut random = Random::new(2);
    for mode in 1..=3 {
        for bits in [2, 4, 6] {
            for rate in 1..=5 {
                let numbers = [mode, bits, rate, 1];
                let (_, count, size) = layer(numbers);
                let state = random_state(&mut random, numbers);
                let packets = random_packets(&mut random, count);
                let (carriers, after) = coded(&state, &packets, size);
                assert!(carriers.iter().all(|&value| value < 1 << bits));
                assert!(after.good());
                assert_eq!(after.register, 0b111000);
            }
        }
    }
}

/// Coding is linear: of three frames and their sum, the carriers and the states after add up too. (Three, so that 47 adds up to
/// 47 and the dispersal to itself.)
#[test]
fn a_frame_is_the_sum_of_three() {
    let mut random = Random::new(3);
    let sum = |a: &[u8], b: &[u8], c: &[u8]| -> Vec<u8> {
        (0..a.len()).map(|i| a[i] ^ b[i] ^ c[i]).collect()
    };
    for numbers in [[1, 2, 1, 2], [1, 4, 4, 1], [2, 6, 5, 1]] {
        let (_, count, size) = layer(numbers);
        let states: Vec<State> = (0..3).map(|_| random_state(&mut random, numbers)).collect();
        let packets: Vec<Vec<u8>> = (0..3).map(|_| random_packets(&mut random, count)).collect();
        let all: Vec<(Vec<u8>, State)> = (0..3)
            .map(|i| coded(&states[i], &packets[i], size))
            .collect();
        let start = sum(&states[0].bytes(), &states[1].bytes(), &states[2].bytes());
        let start = State::from_bytes(&start).unwrap();
        let (carriers, after) = coded(&start, &sum(&packets[0], &packets[1], &packets[2]), size);
        assert_eq!(carriers, sum(&all[0].0, &all[1].0, &all[2].0));
        assert_eq!(
            after.bytes(),
            sum(&all[0].1.bytes(), &all[1].1.bytes(), &all[2].1.bytes())
        );
    }
}

/// What a state holds comes out in the frame after: the lines in its first 120 carriers, the memory within eleven words.
#[test]
fn a_state_comes_out_in_the_next_frame() {
    let mut random = Random::new(4);
    let numbers = [1, 6, 1, 1];
    let (fresh, count, size) = layer(numbers);
    let packets = random_packets(&mut random, count);
    let (plain, after_plain) = coded(&fresh, &packets, size);
    let mut state = fresh.clone();
    state.lines = vec![1; LINES];
    let (carriers, after) = coded(&state, &packets, size);
    for (place, value) in carriers.iter().enumerate() {
        let lines = (1..6).filter(|line| place < 24 * line);
        let held: u8 = lines.map(|line| 32u8 >> line).sum();
        assert_eq!(value ^ plain[place], held);
    }
    assert_eq!(after, after_plain);
    let mut state = fresh;
    state.memory[0] = 1;
    let (carriers, after) = coded(&state, &packets, size);
    assert_ne!(carriers, plain);
    assert_eq!(after, after_plain);
}

/// Each refusal, the first that applies; nothing is altered then.
#[test]
fn refusals_come_in_order() {
    let (good, count, size) = layer([1, 2, 1, 1]);
    let packets = random_packets(&mut Random::new(5), count);
    let mut unsynced = packets.clone();
    unsynced[PACKET * (count - 1)] = 0x46;
    let mut bad = good.clone();
    bad.register = 64;
    for (state, packets, carriers, number) in [
        (&bad, &unsynced[1..], size - 1, 7),
        (&good, &unsynced[1..], size - 1, 5),
        (&good, &unsynced[..], size - 1, 6),
        (&good, &unsynced[..], size, 8),
        (&good, &packets[..], size, 0),
    ] {
        let mut area = vec![0xAA; carriers];
        let (answer, after) = code(state, packets, &mut area);
        assert_eq!(answer, number);
        assert_eq!(&after == state, number != 0);
        assert_eq!(area.iter().all(|&value| value == 0xAA), number != 0);
    }
}
