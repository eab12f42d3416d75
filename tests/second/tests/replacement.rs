//! Late replacement: what it leaves is what coding again gives, and no carrier outside document 01's list alters.

use second::entries::{code, replace};
use second::frame::{word_of, PACKET};
use second::layer::Numbers;
use second::random::Random;
use second::state::State;

/// A frame of random packets coded from a fresh state.
struct Coded {
    numbers: Numbers,
    packets: Vec<u8>,
    carriers: Vec<u8>,
    after: State,
}

fn coded(random: &mut Random, numbers: [u8; 4]) -> Coded {
    let numbers = Numbers::from(numbers);
    let sizes = numbers.sizes().unwrap();
    let mut packets = random.bytes(PACKET * sizes.packets as usize);
    packets
        .chunks_mut(PACKET)
        .for_each(|packet| packet[0] = 0x47);
    let mut carriers = vec![0; sizes.carriers as usize];
    let (_, after) = code(&State::start(numbers).1, &packets, &mut carriers);
    Coded {
        numbers,
        packets,
        carriers,
        after,
    }
}

/// Another packet: one byte differs, or all may.
fn other(random: &mut Random, old: &[u8]) -> Vec<u8> {
    let mut new = old.to_vec();
    if random.below(2) == 0 {
        new[1 + random.below(187) as usize] ^= 1 + random.below(255) as u8;
    } else {
        new[1..].copy_from_slice(&random.bytes(PACKET - 1));
    }
    new
}

const LAYERS: [[u8; 4]; 6] = [
    [1, 2, 1, 1],
    [1, 4, 2, 1],
    [1, 6, 5, 1],
    [1, 2, 3, 2],
    [2, 4, 4, 1],
    [1, 6, 2, 2],
];

/// The first packet, the last, those before it, and others.
fn places(random: &mut Random, count: usize) -> Vec<usize> {
    let any = random.below(count as u64) as usize;
    vec![0, 1, count / 2, any, count - 12, count - 2, count - 1]
}

#[test]
fn a_replacement_is_coding_again() {
    let mut random = Random::new(7);
    for numbers in LAYERS {
        let frame = coded(&mut random, numbers);
        for number in places(&mut random, frame.packets.len() / PACKET) {
            let old = frame.packets[PACKET * number..][..PACKET].to_vec();
            let new = other(&mut random, &old);
            let mut carriers = frame.carriers.clone();
            let (answer, state) = replace(&frame.after, &mut carriers, number, &old, &new);
            assert_eq!(answer, 0);
            let mut packets = frame.packets.clone();
            packets[PACKET * number..][..PACKET].copy_from_slice(&new);
            let mut again = vec![0; carriers.len()];
            let start = State::start(frame.numbers).1;
            let (_, after) = code(&start, &packets, &mut again);
            assert!(carriers == again && state == after);
            assert!(carriers != frame.carriers || state != frame.after);
        }
    }
}

/// How many bits are kept of each message bit of a pattern, by rate: XY is two, X or Y alone is one.
const KEPT: [&[usize]; 5] = [
    &[2],
    &[2, 1],
    &[2, 1, 1],
    &[2, 1, 1, 1, 1],
    &[2, 1, 1, 1, 1, 1, 1],
];

/// Document 01's list, as a mark for each carrier: "For each byte of 0 to 202 in which the two words differ, with b its place in the
/// frame's stream by rule 3: message bits 8b to 8b+13, as far as they lie in the frame; their kept bits; the carriers of these by
/// rule 6."
fn list(frame: &Coded, number: usize, old: &[u8], new: &[u8]) -> Vec<bool> {
    let Numbers { bits, rate, .. } = frame.numbers;
    let (v, pattern) = (usize::from(bits), KEPT[usize::from(rate) - 1]);
    let below = |message: usize| -> usize {
        let whole: usize = pattern.iter().sum();
        let rest: usize = pattern[..message % pattern.len()].iter().sum();
        message / pattern.len() * whole + rest
    };
    let mut listed = vec![false; frame.carriers.len()];
    let (old, new) = (word_of(old), word_of(new));
    for byte in (0..203).filter(|&byte| old[byte] != new[byte]) {
        let at = 204 * (number + byte % 12) + byte;
        for message in 8 * at..8 * at + 14 {
            if message >= 1632 * frame.packets.len() / PACKET {
                continue;
            }
            for kept in below(message)..below(message + 1) {
                let carrier = kept / v + kept % v * 120 / (v - 1);
                if let Some(mark) = listed.get_mut(carrier) {
                    *mark = true;
                }
            }
        }
    }
    listed
}

#[test]
fn no_carrier_outside_the_list_alters() {
    let mut random = Random::new(8);
    let (mut lengths, mut all_altered) = (0, 0);
    for numbers in LAYERS {
        let frame = coded(&mut random, numbers);
        for number in places(&mut random, frame.packets.len() / PACKET) {
            let old = frame.packets[PACKET * number..][..PACKET].to_vec();
            let new = other(&mut random, &old);
            let mut carriers = frame.carriers.clone();
            replace(&frame.after, &mut carriers, number, &old, &new);
            let listed = list(&frame, number, &old, &new);
            let altered = |carrier: &usize| carriers[*carrier] != frame.carriers[*carrier];
            assert!((0..listed.len())
                .filter(altered)
                .all(|carrier| listed[carrier]));
            lengths += listed.iter().filter(|&&listed| listed).count();
            all_altered += (0..listed.len()).filter(altered).count();
        }
    }
    // the lists are not so long that anything would lie in them: more than a third of what they hold alters
    assert!(3 * all_altered > lengths, "{all_altered} of {lengths}");
}

/// QPSK 1/2, byte 0 of word 0 in the list: carriers 0 to 13 and 120 to 133.
#[test]
fn the_list_of_byte_0_is_the_papers() {
    let mut random = Random::new(9);
    let frame = coded(&mut random, [1, 2, 1, 1]);
    let old = frame.packets[..PACKET].to_vec();
    let mut new = old.clone();
    // byte 0 of a word is byte 1 of its packet, the only one that differs but for parity
    new[1] ^= 1;
    let listed = list(&frame, 0, &old, &new);
    for (carrier, &listed) in listed.iter().enumerate().take(200) {
        let papers = carrier < 14 || (120..134).contains(&carrier);
        assert_eq!(listed, papers, "{carrier}");
    }
}
