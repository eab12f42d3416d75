//! Document 01's sums that are run, as the program `cases_sums` reads and should print them.

use crate::entries::{code, replace};
use crate::frame::{PACKET, SYNC};
use crate::frames_coded::checksum;
use crate::layer::Numbers;
use crate::lines::digits;
use crate::random::Random;
use crate::reed_solomon::{nearest, parity, slot};
use crate::state::State;

/// The bytes of a received word that count: all but the sync byte at its end.
const RECEIVED: usize = 203;

/// The words that are read.
const WORDS: usize = 4;

/// A packet of random bytes behind its 47.
fn packet(random: &mut Random) -> Vec<u8> {
    let mut packet = random.bytes(PACKET);
    packet[0] = SYNC;
    packet
}

fn codeword(packet: &[u8]) -> Vec<u8> {
    [packet, &parity(packet)].concat()
}

/// A codeword of which so many bytes are wrong, at different places behind the first, which isn't sent.
fn damaged(random: &mut Random, errors: usize) -> Vec<u8> {
    let mut word = codeword(&packet(random));
    let mut places: Vec<usize> = (1..word.len()).collect();
    for _ in 0..errors {
        let place = places.swap_remove(random.below(places.len() as u64) as usize);
        word[place] ^= 1 + random.below(255) as u8;
    }
    word
}

/// Nine bytes wrong, and no codeword within eight.
fn far_from_all(random: &mut Random) -> Vec<u8> {
    loop {
        let word = damaged(random, 9);
        if nearest(&word).is_none() {
            return word;
        }
    }
}

/// Nine bytes wrong, but towards another codeword that begins with 47: eight bytes from it. Two codewords whose packets differ in
/// one byte differ in that and in all sixteen of parity.
fn near_another(random: &mut Random) -> Vec<u8> {
    let sent = codeword(&packet(random));
    let mut other = sent[..PACKET].to_vec();
    other[1 + random.below(187) as usize] ^= 1 + random.below(255) as u8;
    let other = codeword(&other);
    let unlike: Vec<usize> = (0..sent.len())
        .filter(|&at| sent[at] != other[at])
        .collect();
    let mut word = sent;
    for &at in &unlike[..9] {
        word[at] = other[at];
    }
    word
}

/// What is read: an undamaged word, one with eight bytes wrong, one with nine and no codeword near, one with nine that is near
/// another codeword, each without its first byte; then an old packet and a new one.
pub fn input() -> Vec<u8> {
    let mut random = Random::new(10);
    let words: [Vec<u8>; WORDS] = [
        damaged(&mut random, 0),
        damaged(&mut random, 8),
        far_from_all(&mut random),
        near_another(&mut random),
    ];
    let mut bytes: Vec<u8> = words.iter().flat_map(|word| word[1..].to_vec()).collect();
    bytes.extend(packet(&mut random));
    bytes.extend(packet(&mut random));
    bytes
}

/// A line for each word: the slot's first byte, and its packet.
fn words(received: &[u8]) -> String {
    let words = received.chunks(RECEIVED).enumerate();
    words
        .map(|(number, word)| {
            let slot = slot(word);
            format!("word {}: {} {}\n", number + 1, slot[0], digits(&slot[1..]))
        })
        .collect()
}

/// A line for each number of segments: the number of a start.
fn segments() -> String {
    let numbers = [0, 13, 14].into_iter();
    numbers
        .map(|segments| {
            let (refusal, _) = State::start(Numbers::from([1, 2, 1, segments]));
            format!("segments {segments}: {refusal}\n")
        })
        .collect()
}

/// A frame of old packets, and a line for each replacement in it: the number, and the checksums of the carriers and the state.
fn replacements(old: &[u8], new: &[u8]) -> String {
    let numbers = Numbers::from([1, 2, 1, 1]);
    let sizes = numbers.sizes().expect("legal settings");
    let count = sizes.packets as usize;
    let mut carriers = vec![0; sizes.carriers as usize];
    let (_, mut state) = code(&State::start(numbers).1, &old.repeat(count), &mut carriers);
    let mut printed = String::new();
    for packet in [count - 1, count] {
        let (answer, after) = replace(&state, &mut carriers, packet, old, new);
        state = after;
        let (of_carriers, of_state) = (checksum(&carriers), checksum(&state.bytes()));
        printed += &format!("packet {packet}: {answer} {of_carriers} {of_state}\n");
    }
    printed
}

/// What is printed for the input.
pub fn answers(input: &[u8]) -> Vec<u8> {
    let (received, packets) = input.split_at(WORDS * RECEIVED);
    let (old, new) = packets.split_at(PACKET);
    let printed = words(received) + &segments() + &replacements(old, new);
    printed.into_bytes()
}

#[cfg(test)]
mod tests {
    use super::*;

    /// Document 01's results, and that a replacement is coding again.
    #[test]
    fn the_results_are_the_papers() {
        let input = input();
        assert_eq!(input.len(), 4 * 203 + 376);
        let printed = String::from_utf8(answers(&input)).unwrap();
        let lines: Vec<&str> = printed.lines().collect();
        for (line, begins) in lines.iter().zip([
            "word 1: 0 47",
            "word 2: 8 47",
            "word 3: 255 00",
            "word 4: 8 47",
            "segments 0: 4",
            "segments 13: 0",
            "segments 14: 4",
            "packet 11: 0 ",
            "packet 12: 9 ",
        ]) {
            assert!(line.starts_with(begins), "{line}");
        }
        assert_eq!(lines.len(), 9);
        let sums = |line: &str| line.split(' ').skip(3).collect::<Vec<_>>().join(" ");
        assert_eq!(sums(lines[7]), sums(lines[8]));
        let (old, new) = input[4 * 203..].split_at(188);
        let mut carriers = vec![0; 19584];
        let frame = [old.repeat(11), new.to_vec()].concat();
        let start = State::start(Numbers::from([1, 2, 1, 1])).1;
        let (_, after) = code(&start, &frame, &mut carriers);
        let expected = format!("{} {}", checksum(&carriers), checksum(&after.bytes()));
        assert_eq!(sums(lines[7]), expected);
    }
}
