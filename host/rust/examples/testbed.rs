//! For tests/check-stream: makes a stream, and damages carriers. The same for the same seed.
//!
//! `testbed stream COUNT SEED` writes so many packets: null packets and clocks among random ones.
//! `testbed damage V OFTEN SEED` copies carriers of V bits, and turns OFTEN of ten thousand bits on the average.

use std::io::{self, Read, Write};
use std::process::ExitCode;

use second::random::Random;
use warintaya::{PACKET, SYNC};

/// A stream that has what real ones have: every third packet a null packet, the last ones too.
fn stream(count: usize, seed: u64) -> Vec<u8> {
    let mut random = Random::new(seed);
    let mut stream = Vec::new();
    for number in 0..count {
        let mut packet = random.bytes(PACKET);
        packet[0] = SYNC;
        if number % 3 == 0 || number + 20 > count {
            packet.fill(0xFF);
            packet[..4].copy_from_slice(&[SYNC, 0x1F, 0xFF, 0x10]);
        }
        stream.extend(packet);
    }
    stream
}

/// Carriers with some bits turned.
fn damaged(bits: u8, often: u64, seed: u64) -> io::Result<Vec<u8>> {
    let mut random = Random::new(seed);
    let mut carriers = Vec::new();
    io::stdin().read_to_end(&mut carriers)?;
    for carrier in &mut carriers {
        for bit in 0..bits {
            *carrier ^= u8::from(random.below(10_000) < often) << bit;
        }
    }
    Ok(carriers)
}

/// What the words ask for; nothing where they ask for nothing that can be done.
fn made(words: &[&str]) -> Option<io::Result<Vec<u8>>> {
    match words {
        ["stream", count, seed] => Some(Ok(stream(count.parse().ok()?, seed.parse().ok()?))),
        ["damage", bits @ ("2" | "4" | "6"), often, seed] => Some(damaged(
            bits.parse().ok()?,
            often.parse().ok()?,
            seed.parse().ok()?,
        )),
        _ => None,
    }
}

fn main() -> ExitCode {
    let words: Vec<String> = std::env::args().skip(1).collect();
    let words: Vec<&str> = words.iter().map(String::as_str).collect();
    let made = match made(&words) {
        Some(made) => made,
        None => {
            eprintln!("usage: testbed stream COUNT SEED | testbed damage V OFTEN SEED");
            return ExitCode::from(2);
        }
    };
    match made.and_then(|bytes| io::stdout().write_all(&bytes)) {
        Ok(()) => ExitCode::SUCCESS,
        Err(why) => {
            eprintln!("testbed: {why}");
            ExitCode::FAILURE
        }
    }
}
