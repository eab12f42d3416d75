//! Words for the Reed-Solomon code: what the program `cases_reed_solomon` reads and should print.

use crate::random::Random;
use crate::reed_solomon::{nearest, parity, slot};

/// The bytes of a file of hexadecimal numbers.
pub fn hex(text: &str) -> Vec<u8> {
    text.split_whitespace()
        .map(|two| u8::from_str_radix(two, 16).expect("a vector is hexadecimal"))
        .collect()
}

/// Two words from the literature, as they are sent: bytes 1 to 203 of the codeword and then 47. The second comes with its
/// dispersal, which the first takes off again.
pub fn printed() -> [Vec<u8>; 2] {
    let word = hex(include_str!("../../vectors/figure-3-6-word.hex"));
    let dispersed = hex(include_str!("../../vectors/figure-3-8-dispersed-word.hex"));
    [word, dispersed]
}

/// A codeword of random bytes. A packet begins with 47 more often than not.
fn codeword(random: &mut Random) -> Vec<u8> {
    let mut word = random.bytes(188);
    if random.below(4) != 0 {
        word[0] = 0x47;
    }
    let parity = parity(&word);
    word.extend(parity);
    word
}

/// Changes so many bytes, at different places from `first` on.
fn damage(random: &mut Random, word: &mut [u8], first: usize, errors: usize) {
    let mut places: Vec<usize> = (first..word.len()).collect();
    for _ in 0..errors.min(places.len()) {
        let place = places.swap_remove(random.below(places.len() as u64) as usize);
        word[place] ^= 1 + random.below(255) as u8;
    }
}

/// A word between two codewords, of which it has the bytes by turns: half of the bytes in which they differ.
fn between(random: &mut Random) -> Vec<u8> {
    let one = codeword(random);
    let mut other = one.clone();
    // a codeword of the least weight: seventeen bytes, of which the last sixteen are parity
    let mut message = vec![0; 188];
    message[random.below(188) as usize] = 1 + random.below(255) as u8;
    let mut light = message.clone();
    light.extend(parity(&message));
    for (o, l) in other.iter_mut().zip(&light) {
        *o ^= l;
    }
    let unlike: Vec<usize> = (0..204).filter(|&i| one[i] != other[i]).collect();
    let mut word = one;
    for &i in unlike
        .iter()
        .take(unlike.len() / 2 + random.below(2) as usize)
    {
        word[i] = other[i];
    }
    word
}

/// One word of 204 bytes.
fn word(random: &mut Random) -> Vec<u8> {
    let kind = random.below(16);
    let mut word = codeword(random);
    let errors = random.below(13) as usize;
    match kind {
        // anywhere
        0..=7 => damage(random, &mut word, 0, errors),
        // byte 0 and others: the codeword may not begin with 47
        8 => {
            word[0] ^= 1 + random.below(255) as u8;
            damage(random, &mut word, 1, errors.min(8));
        }
        // parity alone
        9 | 10 => damage(random, &mut word, 188, errors),
        // a burst
        11 => {
            let at = random.below(190) as usize;
            damage(random, &mut word[at..at + 14], 0, errors);
        }
        12 | 13 => word = between(random),
        14 => word = random.bytes(204),
        _ => {}
    }
    word
}

/// A word that was sent, from a codeword: its first byte goes, and 47 comes behind.
fn sent(codeword: &[u8]) -> Vec<u8> {
    let mut word = codeword[1..].to_vec();
    word.push(0x47);
    word
}

/// Random words of 204 bytes, half of them as they stand in the code and half as they are sent.
pub fn random(seed: u64, count: u64) -> Vec<u8> {
    let mut random = Random::new(seed);
    let mut words = Vec::new();
    for i in 0..count {
        let word = word(&mut random);
        words.extend(if i % 2 == 0 { word } else { sent(&word) });
    }
    words
}

/// The run case: the printed words, a word of zeros, and random ones.
pub fn sample() -> Vec<u8> {
    let mut words = printed().concat();
    words.extend(vec![0; 204]);
    words.extend(vec![255; 204]);
    words.extend(random(3, 400));
    words
}

/// What is printed for the words: for each its slot, the parity of its first 188 bytes, the number of bytes corrected or
/// 255, and the word after that.
pub fn answers(words: &[u8]) -> Vec<u8> {
    let mut out = Vec::new();
    for word in words.chunks_exact(204) {
        out.extend(slot(word));
        out.extend(parity(&word[..188]));
        match nearest(word) {
            Some((codeword, changed)) => {
                out.push(changed as u8);
                out.extend(codeword);
            }
            None => {
                out.push(255);
                out.extend(word);
            }
        }
    }
    out
}

#[cfg(test)]
mod tests {
    use super::*;

    /// The printed word is a codeword with 47 in front, and the other one is it with the sequence that begins 03 F6 08 34.
    #[test]
    fn the_printed_words_agree() {
        let [word, dispersed] = printed();
        assert_eq!(slot(&word)[..4], [0, 0x47, 0x01, 0x01]);
        let sequence: Vec<u8> = word.iter().zip(&dispersed).map(|(a, b)| a ^ b).collect();
        assert_eq!(sequence[..4], [0x03, 0xF6, 0x08, 0x34]);
        assert_eq!(sequence[203], 0);
    }

    /// Every kind of answer is seen among the random words.
    #[test]
    fn every_answer_is_seen() {
        let words = random(1, 4000);
        let mut seen = [[false; 256]; 2];
        for record in answers(&words).chunks_exact(189 + 16 + 205) {
            seen[0][usize::from(record[189 + 16])] = true;
            seen[1][usize::from(record[0])] = true;
        }
        for number in (0..=8).chain([255]) {
            assert!(seen[0][number] && seen[1][number], "{number} is not seen");
        }
        assert!(seen[1][254]);
    }
}
