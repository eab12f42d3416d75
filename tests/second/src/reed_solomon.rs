//! The (204, 188) Reed-Solomon code by the textbook: division by the generator, and Berlekamp and Massey's way back.
//!
//! Words here are 204 bytes, the highest coefficient first. The roots are the powers 0 to 15 of 2.

use crate::table::Table;

/// The product in GF(256) modulo x^8 + x^4 + x^3 + x^2 + 1, bit by bit.
fn product_of(a: u8, b: u8) -> u8 {
    let (mut a, mut b, mut product) = (u16::from(a), b, 0u16);
    while b != 0 {
        if b & 1 == 1 {
            product ^= a;
        }
        a <<= 1;
        if a & 0x100 != 0 {
            a ^= 0x11D;
        }
        b >>= 1;
    }
    product as u8
}

/// Every product, worked out once.
static PRODUCTS: Table<Vec<[u8; 256]>> = Table::new(|| {
    (0..=255)
        .map(|a| std::array::from_fn(|b| product_of(a, b as u8)))
        .collect()
});

fn times(a: u8, b: u8) -> u8 {
    PRODUCTS[usize::from(a)][usize::from(b)]
}

/// 1 over each number, found by trying: the entry of 0 stands for nothing.
static INVERSES: Table<Vec<u8>> = Table::new(|| {
    (0..=255u8)
        .map(|a| (0..=255).find(|&b| times(a, b) == 1).unwrap_or(0))
        .collect()
});

/// The powers of 2, from 0 to 254.
static POWERS: Table<Vec<u8>> = Table::new(|| {
    std::iter::successors(Some(1u8), |&p| Some(times(p, 2)))
        .take(255)
        .collect()
});

fn inverse(a: u8) -> u8 {
    INVERSES[usize::from(a)]
}

/// The generator, the lowest coefficient first: the product of x + 2^j for j below 16.
static GENERATOR: Table<Vec<u8>> = Table::new(|| {
    let mut product = vec![1u8];
    for &root in &POWERS[..16] {
        let mut next = vec![0u8; product.len() + 1];
        for (i, &c) in product.iter().enumerate() {
            next[i + 1] ^= c;
            next[i] ^= times(c, root);
        }
        product = next;
    }
    product
});

/// The generator times each number, the highest coefficient first.
static MULTIPLES: Table<Vec<[u8; 17]>> = Table::new(|| {
    (0..=255)
        .map(|factor| std::array::from_fn(|k| times(factor, GENERATOR[16 - k])))
        .collect()
});

/// The sixteen parity bytes of a message of 188 bytes: the remainder of a long division.
pub fn parity(message: &[u8]) -> Vec<u8> {
    let multiples = &*MULTIPLES;
    let mut rest: Vec<u8> = message.to_vec();
    rest.resize(message.len() + 16, 0);
    for i in 0..message.len() {
        let multiple = multiples[usize::from(rest[i])];
        for (byte, product) in rest[i..].iter_mut().zip(multiple) {
            *byte ^= product;
        }
    }
    rest.split_off(message.len())
}

fn syndromes(word: &[u8]) -> Vec<u8> {
    (0..16)
        .map(|j| {
            let root = POWERS[j];
            word.iter()
                .fold(0, |value, &byte| times(value, root) ^ byte)
        })
        .collect()
}

/// The shortest register that makes the syndromes: its connection polynomial, the lowest coefficient first, and its length.
fn berlekamp_massey(syndromes: &[u8]) -> (Vec<u8>, usize) {
    let (mut current, mut before) = (vec![1u8], vec![1u8]);
    let (mut length, mut shift, mut last) = (0usize, 1usize, 1u8);
    for n in 0..syndromes.len() {
        let mut discrepancy = syndromes[n];
        for i in 1..=length.min(current.len() - 1) {
            discrepancy ^= times(current[i], syndromes[n - i]);
        }
        if discrepancy == 0 {
            shift += 1;
            continue;
        }
        let factor = times(discrepancy, inverse(last));
        let mut next = current.clone();
        next.resize(next.len().max(before.len() + shift), 0);
        for (i, &b) in before.iter().enumerate() {
            next[i + shift] ^= times(factor, b);
        }
        if 2 * length <= n {
            length = n + 1 - length;
            before = current;
            last = discrepancy;
            shift = 1;
        } else {
            shift += 1;
        }
        current = next;
    }
    (current, length)
}

fn value(polynomial: &[u8], x: u8) -> u8 {
    polynomial.iter().rev().fold(0, |v, &c| times(v, x) ^ c)
}

/// The codeword within eight bytes of a word, and how many bytes differ; nothing where there is none.
pub fn nearest(word: &[u8]) -> Option<(Vec<u8>, usize)> {
    let syndromes = syndromes(word);
    if syndromes.iter().all(|&s| s == 0) {
        return Some((word.to_vec(), 0));
    }
    let (locator, length) = berlekamp_massey(&syndromes);
    if length > 8 {
        return None;
    }
    // the errors' values by Forney's formula: the evaluator is syndromes times locator, modulo x^16
    let mut evaluator = vec![0u8; 16];
    for (i, &l) in locator.iter().enumerate() {
        for (j, &s) in syndromes.iter().enumerate() {
            if i + j < 16 {
                evaluator[i + j] ^= times(l, s);
            }
        }
    }
    let derivative: Vec<u8> = (1..locator.len())
        .map(|i| if i % 2 == 1 { locator[i] } else { 0 })
        .collect();
    let mut fixed = word.to_vec();
    let mut changed = 0;
    for place in 0..word.len() {
        let x = POWERS[word.len() - 1 - place];
        let back = inverse(x);
        if value(&locator, back) == 0 {
            let slope = value(&derivative, back);
            if slope == 0 {
                return None;
            }
            let error = times(x, times(value(&evaluator, back), inverse(slope)));
            fixed[place] ^= error;
            changed += usize::from(error != 0);
        }
    }
    let clean = self::syndromes(&fixed).iter().all(|&s| s == 0);
    (clean && changed <= 8).then_some((fixed, changed))
}

/// The slot of a word as it was received, 204 bytes of which the last is the sync byte of the packet after it: 47 in front of
/// bytes 0 to 202, then the number of bytes corrected and the packet, or 254 or 255 and zeros.
pub fn slot(received: &[u8]) -> Vec<u8> {
    let mut word = vec![0x47];
    word.extend_from_slice(&received[..203]);
    let (number, packet) = match nearest(&word) {
        None => (255, vec![0; 188]),
        Some((codeword, _)) if codeword[0] != 0x47 => (254, vec![0; 188]),
        Some((codeword, changed)) => (changed as u8, codeword[..188].to_vec()),
    };
    let mut slot = vec![number];
    slot.extend_from_slice(&packet);
    slot
}

#[cfg(test)]
mod tests {
    use super::*;

    /// Document 01's sums: 02 times 80 is 1D, and zeros have a parity of zeros.
    #[test]
    fn hand_sums() {
        assert_eq!(times(0x02, 0x80), 0x1D);
        assert_eq!(parity(&[0; 188]), [0; 16]);
    }

    /// The generator as document 001 prints it, the highest coefficient first.
    #[test]
    fn the_generator_is_the_printed_one() {
        let printed = [
            1, 59, 13, 104, 189, 68, 209, 30, 8, 163, 65, 41, 229, 98, 50, 36, 59,
        ];
        assert!(GENERATOR.iter().rev().eq(&printed));
    }
}
