//! Document 01's sums done by hand and the literature's words, by the machines.

use std::collections::VecDeque;

use second::frame::word_of;
use second::layer::Numbers;
use second::machines::{
    BitInterleaver, ByteInterleaver, ConvolutionalCoder, Dispersal, Puncturing,
};
use second::random::Random;
use second::state::{LINES, MEMORY};
use second::words::{hex, printed};

/// A layer of mode 1 and one segment with so many bits a carrier.
fn layer(bits: u8) -> Numbers {
    Numbers::from([1, bits, 1, 1])
}

#[test]
fn dispersal_begins_03_f6_08_34() {
    let mut generator = Dispersal::new();
    assert_eq!([(); 4].map(|_| generator.byte()), [0x03, 0xF6, 0x08, 0x34]);
}

/// The packet of Figure 3.5 becomes the words of Figures 3.6 and 3.8, as word 0 of a frame.
#[test]
fn the_printed_words() {
    let mut packet = hex("47 01 01 20 B7 10 09 F5 D7 8C 00 FB");
    packet.resize(188, 0xFF);
    let mut word = word_of(&packet);
    let [sent, dispersed] = printed();
    assert_eq!(word, sent);
    Dispersal::new().word(&mut word);
    assert_eq!(word, dispersed);
}

/// Word 0 comes out on branch 11 with word 11: the 17 bytes that Figure 3.10 has of it.
#[test]
fn the_printed_word_behind_the_branches() {
    let [_, dispersed] = printed();
    let figure = hex(include_str!(
        "../../vectors/figure-3-10-interleaved-word.hex"
    ));
    let mut branches = ByteInterleaver::new(&[0; MEMORY]);
    let mut word = dispersed;
    branches.word(&mut word);
    for _ in 1..=11 {
        word = vec![0; 204];
        branches.word(&mut word);
    }
    let on_branch_11: Vec<usize> = (11..204).step_by(12).collect();
    assert_eq!(on_branch_11.len(), 17);
    for place in on_branch_11 {
        assert_eq!(word[place], figure[place]);
    }
}

/// Word 0's bytes 1, 11, 12 and 203 come out at stream bytes 205, 2255, 12 and 2447, and every other by rule 3 too.
#[test]
fn where_a_byte_comes_out() {
    for place in 0..204 {
        let mut branches = ByteInterleaver::new(&[0; MEMORY]);
        let mut stream = Vec::new();
        for number in 0..12 {
            let mut word = [0; 204];
            if number == 0 {
                word[place] = 1;
            }
            branches.word(&mut word);
            stream.extend(word);
        }
        let ones: Vec<usize> = (0..stream.len()).filter(|&at| stream[at] == 1).collect();
        assert_eq!(ones, [place + 204 * (place % 12)]);
        match place {
            1 => assert_eq!(ones, [205]),
            11 => assert_eq!(ones, [2255]),
            12 => assert_eq!(ones, [12]),
            203 => assert_eq!(ones, [2447]),
            _ => {}
        }
    }
}

/// The kept bits of a message from register 0, a group for each message bit.
fn coded(message: &[u8], rate: u8) -> String {
    let (mut coder, mut puncturing) = (ConvolutionalCoder::new(0), Puncturing::new(rate));
    let mut groups = Vec::new();
    for &bit in message {
        let mut kept = VecDeque::new();
        puncturing.keep(coder.bit(bit), &mut kept);
        groups.push(kept.iter().map(u8::to_string).collect::<String>());
    }
    groups.join(" ")
}

#[test]
fn a_single_one_coded_and_punctured() {
    let message = [1, 0, 0, 0, 0, 0, 0];
    assert_eq!(coded(&message, 1), "11 10 11 11 00 01 11");
    assert_eq!(coded(&message, 2), "11 0 11 1 00 1 11");
    assert_eq!(coded(&message, 3), "11 0 1 11 0 0 11");
}

/// The newest bit is the register's highest; six bits later it is gone.
#[test]
fn the_register_is_read_and_written() {
    for register in 0..64 {
        let mut coder = ConvolutionalCoder::new(register);
        assert_eq!(coder.register(), register);
        coder.bit(1);
        assert_eq!(coder.register(), 32 + register / 2);
        for _ in 0..6 {
            coder.bit(0);
        }
        assert_eq!(coder.register(), 0);
    }
}

/// The carriers of kept bits from empty lines, with bits 0 behind them.
fn carriers(bits: u8, kept: &[u8]) -> Vec<u8> {
    let mut lines = BitInterleaver::new(layer(bits), &[0; LINES]);
    let mut queue: VecDeque<u8> = kept.iter().copied().collect();
    queue.extend(vec![0; 130 * usize::from(bits)]);
    std::iter::from_fn(|| lines.carrier(&mut queue)).collect()
}

/// Kept bit c comes out in carrier c / v plus (c mod v) 120 / (v - 1), in the bit of its line.
#[test]
fn where_a_kept_bit_comes_out() {
    for (bits, kept_bit, carrier) in [
        (4, 0, 0),
        (4, 1, 40),
        (4, 2, 80),
        (4, 3, 120),
        (6, 11, 121),
        (2, 1, 120),
        (6, 4, 96),
    ] {
        let mut kept = vec![0; kept_bit + 1];
        kept[kept_bit] = 1;
        let line = kept_bit % usize::from(bits);
        for (place, value) in carriers(bits, &kept).into_iter().enumerate() {
            let expected = if place == carrier {
                1 << (usize::from(bits) - 1 - line)
            } else {
                0
            };
            assert_eq!(value, expected, "bit {kept_bit} of {bits}, carrier {place}");
        }
    }
}

/// What stands in a state's entries is what the lines give back, oldest first; lines read again from it go on as they would have.
#[test]
fn the_entries_are_read_and_written() {
    let mut random = Random::new(1);
    let mut random_bits =
        |count| -> Vec<u8> { (0..count).map(|_| random.below(2) as u8).collect() };
    for bits in [2, 4, 6] {
        let mut entries = random_bits(60 * usize::from(bits));
        entries.resize(LINES, 0);
        let mut lines = BitInterleaver::new(layer(bits), &entries);
        assert_eq!(lines.entries(), entries);
        let mut kept = VecDeque::from(random_bits(77 * usize::from(bits)));
        let first = lines.carrier(&mut kept).unwrap();
        assert_eq!(first >> (bits - 2) & 1, entries[0]);
        while lines.carrier(&mut kept).is_some() {}
        let mut again = BitInterleaver::new(layer(bits), &lines.entries());
        let kept = VecDeque::from(random_bits(usize::from(bits)));
        assert_eq!(
            again.carrier(&mut kept.clone()),
            lines.carrier(&mut kept.clone())
        );
        assert_eq!(again.entries(), lines.entries());
    }
}

/// QPSK 1/2: the bits of stream byte 0 reach the carriers 0 to 13 and 120 to 133, and no others.
#[test]
fn the_list_of_byte_0() {
    let mut reached = vec![false; 300];
    for bit in 0..8 {
        let (mut coder, mut puncturing) = (ConvolutionalCoder::new(0), Puncturing::new(1));
        let mut kept = VecDeque::new();
        for place in 0..20 {
            puncturing.keep(coder.bit(u8::from(place == bit)), &mut kept);
        }
        let kept: Vec<u8> = kept.into();
        for (carrier, value) in carriers(2, &kept).into_iter().enumerate() {
            reached[carrier] |= value != 0;
        }
    }
    let listed = |carrier: usize| carrier < 14 || (120..134).contains(&carrier);
    assert!((0..300).all(|carrier| reached[carrier] == listed(carrier)));
}

/// Bits that are passed over count as bits that are kept one by one, from every place of every pattern.
#[test]
fn bits_passed_over_are_counted() {
    for rate in 1..=5 {
        for before in 0..8 {
            for bits in 0..40 {
                let (mut one, mut other) = (Puncturing::new(rate), Puncturing::new(rate));
                let mut kept = VecDeque::new();
                for _ in 0..before {
                    one.keep((0, 0), &mut kept);
                }
                other.passed(before);
                kept.clear();
                for _ in 0..bits {
                    one.keep((0, 0), &mut kept);
                }
                assert_eq!(other.passed(bits), kept.len());
                assert_eq!(other.at_start(), one.at_start());
            }
        }
    }
}
