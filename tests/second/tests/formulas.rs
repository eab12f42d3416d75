//! Two frames in a row once more, by document 01's formulas over places instead of machines: where the two ways agree, neither
//! has slipped by one.

use second::entries::code;
use second::frame::{word_of, PACKET};
use second::layer::Numbers;
use second::random::Random;
use second::state::State;

/// Rule 2's sequence as bits: the load before it, and each bit the sum of those 14 and 15 before it.
fn sequence(length: usize) -> Vec<u8> {
    // the stage with the higher number holds the older bit
    let mut bits: Vec<u8> = "000000010101001"
        .bytes()
        .map(|digit| digit - b'0')
        .collect();
    for place in 15..15 + length {
        bits.push(bits[place - 14] ^ bits[place - 15]);
    }
    bits.split_off(15)
}

/// Rules 1 to 3 for frames of so many packets: the message bits of all frames.
fn message(packets: &[u8], frame: usize) -> Vec<u8> {
    let sequence = sequence(1632 * frame);
    let mut words: Vec<Vec<u8>> = packets.chunks(PACKET).map(word_of).collect();
    for (number, word) in words.iter_mut().enumerate() {
        for (place, byte) in word.iter_mut().enumerate().take(203) {
            let start = 1632 * (number % frame) + 8 * place;
            *byte ^= sequence[start..start + 8]
                .iter()
                .fold(0, |byte, bit| 2 * byte + bit);
        }
    }
    let mut bits = Vec::new();
    for number in 0..words.len() {
        for place in 0..204 {
            let byte = match number.checked_sub(place % 12) {
                Some(sent) => words[sent][place],
                None => 0,
            };
            bits.extend((0..8).map(|bit| byte >> (7 - bit) & 1));
        }
    }
    bits
}

/// Rules 4 and 5: the kept bits. A frame is a whole number of patterns, so these go on through the frames.
fn kept(message: &[u8], rate: u8) -> Vec<u8> {
    let pattern = [
        "11",
        "11 01",
        "11 01 10",
        "11 01 10 01 10",
        "11 01 01 01 10 01 10",
    ];
    let pattern: Vec<&str> = pattern[usize::from(rate) - 1].split(' ').collect();
    let back = |place: usize, by: usize| if by > place { 0 } else { message[place - by] };
    let mut kept = Vec::new();
    for place in 0..message.len() {
        let window = (0..7).fold(0, |window, by| 2 * window + u32::from(back(place, by)));
        let coded = [0o171, 0o133].map(|taps: u32| (window & taps).count_ones() as u8 % 2);
        for (bit, digit) in coded
            .into_iter()
            .zip(pattern[place % pattern.len()].bytes())
        {
            if digit == b'1' {
                kept.push(bit);
            }
        }
    }
    kept
}

/// Rule 6: the value of a carrier, counted through the frames.
fn carrier(kept: &[u8], bits: usize, place: usize) -> u8 {
    (0..bits).fold(0, |value, line| {
        let bit = match place.checked_sub(line * 120 / (bits - 1)) {
            Some(sent) => kept[sent * bits + line],
            None => 0,
        };
        2 * value + bit
    })
}

#[test]
fn the_machines_follow_the_formulas() {
    let mut random = Random::new(6);
    for mode in 1..=3 {
        for bits in [2, 4, 6] {
            for rate in 1..=5 {
                let numbers = Numbers::from([mode, bits, rate, if mode == 1 { 2 } else { 1 }]);
                let sizes = numbers.sizes().ok().unwrap();
                let (count, size) = (sizes.packets as usize, sizes.carriers as usize);
                let mut packets = random.bytes(2 * PACKET * count);
                packets
                    .chunks_mut(PACKET)
                    .for_each(|packet| packet[0] = 0x47);
                let kept = kept(&message(&packets, count), rate);
                let (_, mut state) = State::start(numbers);
                for (number, frame) in packets.chunks(PACKET * count).enumerate() {
                    let mut carriers = vec![0; size];
                    let (answer, after) = code(&state, frame, &mut carriers);
                    assert_eq!(answer, 0);
                    for (place, &value) in carriers.iter().enumerate() {
                        assert_eq!(
                            value,
                            carrier(&kept, usize::from(bits), number * size + place)
                        );
                    }
                    state = after;
                }
            }
        }
    }
}
