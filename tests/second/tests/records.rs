//! Records: how one is started, when it is good, byte by byte, and that each layer in it does what it does alone.

use second::entries;
use second::frame::{PACKET, SYNC};
use second::layer::Numbers;
use second::random::Random;
use second::receiving::{self, SLOT};
use second::record::{self, Coding, Receiving, Record, RECEIVING_RECORD, RECORD};
use second::state::{self, State};

const UNUSED: [u8; 3] = [0; 3];

/// Starts, and what each is answered: the mode first, then the layers in their order, then the segments of all; 1 even if no layer
/// is used.
const STARTS: [(u8, [[u8; 3]; 3], u8); 15] = [
    (1, [UNUSED; 3], 0),
    (3, [[2, 1, 13], UNUSED, UNUSED], 0),
    (2, [UNUSED, [4, 3, 6], [6, 5, 7]], 0),
    (1, [[2, 2, 1], [6, 3, 11], [4, 1, 1]], 0),
    (0, [UNUSED; 3], 1),
    (4, [[3, 0, 0], UNUSED, [2, 1, 14]], 1),
    (1, [[2, 1, 1], [0, 1, 1], UNUSED], 2),
    (1, [[2, 0, 1], [3, 1, 1], UNUSED], 3),
    (1, [UNUSED, UNUSED, [6, 5, 0]], 4),
    (1, [UNUSED, UNUSED, [0, 0, 1]], 2),
    (1, [[2, 1, 13], [2, 1, 13], [2, 1, 14]], 4),
    (1, [[2, 1, 13], [2, 1, 1], [2, 6, 1]], 3),
    (1, [[2, 1, 13], [2, 1, 1], UNUSED], 12),
    (1, [[2, 1, 13], [2, 1, 13], [2, 1, 13]], 12),
    (3, [[2, 1, 1], [2, 1, 1], [2, 1, 12]], 12),
];

/// Document 02's order, and zeros throughout after a refused start.
#[test]
fn a_start_is_done_or_refused() {
    for (mode, layers, expected) in STARTS {
        let (number, coding) = Coding::start(mode, layers);
        let (also, receiving) = Receiving::start(mode, layers);
        assert_eq!((number, also), (expected, expected), "{mode}, {layers:?}");
        assert_eq!(
            (coding.good(), receiving.good()),
            (expected == 0, expected == 0)
        );
        let (coding, receiving) = (coding.bytes(), receiving.bytes());
        assert_eq!((coding.len(), receiving.len()), (RECORD, RECEIVING_RECORD));
        if expected != 0 {
            assert!(coding.iter().chain(&receiving).all(|&byte| byte == 0));
            continue;
        }
        for (name, layer) in layers.into_iter().enumerate() {
            let [v, rate, segments] = layer;
            let numbers = if layer == UNUSED {
                [0; 4]
            } else {
                [mode, v, rate, segments]
            };
            assert_eq!(coding[1 + state::STATE * name..][..4], numbers);
            assert_eq!(receiving[1 + receiving::STATE * name..][..4], numbers);
        }
    }
}

/// The values that each byte is tried with.
const VALUES: [u8; 17] = [
    0, 1, 2, 3, 4, 5, 6, 7, 12, 13, 14, 62, 63, 64, 127, 128, 255,
];

/// A record is good exactly with those values at each byte that `allowed` has, all others being as they are.
fn byte_by_byte(good: impl Fn(&[u8]) -> bool, bytes: &[u8], allowed: impl Fn(usize, u8) -> bool) {
    assert!(good(bytes));
    for place in 0..bytes.len() {
        for value in VALUES {
            let mut bytes = bytes.to_vec();
            bytes[place] = value;
            assert_eq!(good(&bytes), allowed(place, value), "{value} at {place}");
        }
    }
}

/// Layer A is 64QAM with five segments, B is unused, C is QPSK with six: two more would do in A or in C.
#[test]
fn a_coding_record_is_good_or_not() {
    let (_, record) = Coding::start(2, [[6, 3, 5], UNUSED, [2, 1, 6]]);
    let mut bytes = record.bytes();
    // the last entry of 64QAM is used, so that no fewer bits have room for it
    bytes[1487] = 1;
    let allowed = |place: usize, value: u8| match place {
        // the mode, of the record and of its layers
        0 | 1 | 2975 => value == 2,
        2 => value == 6,
        2976 => [2, 4, 6].contains(&value),
        3 | 2977 => (1..=5).contains(&value),
        4 => (1..=7).contains(&value),
        2978 => (1..=8).contains(&value),
        // the bytes of the interleaver, the register, the entries
        5..=1126 | 2979..=4100 => true,
        1127 | 4101 => value < 64,
        1128..=1487 | 4102..=4221 => value < 2,
        // layer B, and what QPSK has no lines for
        1488..=2974 | 4222..=4461 => value == 0,
        _ => unreachable!("a record has 4,462 bytes"),
    };
    let good = |bytes: &[u8]| Coding::from_bytes(bytes).unwrap().good();
    byte_by_byte(good, &bytes, allowed);
}

/// Layer A is QPSK 1/2 and has taken a frame, B is unused, C is 16QAM and has taken none.
#[test]
fn a_receiving_record_is_good_or_not() {
    let (_, record) = Receiving::start(3, [[2, 1, 1], UNUSED, [4, 2, 12]]);
    let mut bytes = record.bytes();
    bytes[5] = 1;
    // the last bit held of QPSK 1/2, 3,264 - 240 of them: no other settings have room for it
    bytes[1489 + 3023] = 1;
    let allowed = |place: usize, value: u8| match place {
        0 | 1 | 9121 => value == 3,
        2 => value == 2,
        3 | 4 => value == 1,
        9122 => [2, 4, 6].contains(&value),
        9123 => (1..=5).contains(&value),
        9124 => (1..=12).contains(&value),
        // no frame is taken in A, or one is in C, which then may hold nothing but zeros
        5 => value == 1,
        9125 => value < 2,
        6..=1127 => true,
        1128..=1247 => value < 2,
        1488 => value < 64,
        1489..=4512 => value < 2,
        // what QPSK doesn't use, layer B, and all the rest of C
        1248..=1487 | 4513..=4560 | 4561..=9120 | 9126..=13680 => value == 0,
        _ => unreachable!("a record has 13,681 bytes"),
    };
    let good = |bytes: &[u8]| Receiving::from_bytes(bytes).unwrap().good();
    byte_by_byte(good, &bytes, allowed);
}

/// All zero but for the mode of a layer, which is neither good nor unused; other lengths, which are no record.
#[test]
fn other_areas_are_not_good() {
    for name in 0..3 {
        let mut bytes = vec![0; RECORD];
        bytes[0] = 1;
        assert!(Coding::from_bytes(&bytes).unwrap().good());
        bytes[1 + state::STATE * name] = 1;
        assert!(!Coding::from_bytes(&bytes).unwrap().good());
        let mut bytes = vec![0; RECEIVING_RECORD];
        bytes[0] = 3;
        bytes[1 + receiving::STATE * name] = 3;
        assert!(!Receiving::from_bytes(&bytes).unwrap().good());
    }
    for length in [0, 1, state::STATE, RECORD - 1, RECORD + 1, RECEIVING_RECORD] {
        assert_eq!(Coding::from_bytes(&vec![0; length]), None);
    }
    let bytes: Vec<u8> = (0..RECORD).map(|place| (place % 251) as u8).collect();
    assert_eq!(Coding::from_bytes(&bytes).unwrap().bytes(), bytes);
}

const LAYERS: [[u8; 3]; 3] = [[2, 1, 1], [6, 5, 2], [4, 2, 1]];

/// The numbers of a layer, its packets and its carriers.
fn sizes(name: u8) -> (Numbers, usize, usize) {
    let [v, rate, segments] = LAYERS[usize::from(name)];
    let numbers = Numbers::from([1, v, rate, segments]);
    let sizes = numbers.sizes().unwrap();
    (numbers, sizes.packets as usize, sizes.carriers as usize)
}

fn packets(random: &mut Random, count: usize) -> Vec<u8> {
    let mut packets = random.bytes(PACKET * count);
    packets
        .chunks_mut(PACKET)
        .for_each(|packet| packet[0] = SYNC);
    packets
}

/// Frames of three layers, in turn and out of turn, with replacements between them: each is what its layer alone gives.
#[test]
fn a_layer_in_a_record_does_what_it_does_alone() {
    let mut random = Random::new(17);
    let mut coding = Coding::start(1, LAYERS).1;
    let mut receiving = Receiving::start(1, LAYERS).1;
    let mut alone = [0, 1, 2].map(|name| State::start(sizes(name).0).1);
    let mut receivers = [0, 1, 2].map(|name| receiving::State::start(sizes(name).0).1);
    for name in [0, 1, 2, 0, 1, 2, 2, 2, 1, 0, 0, 1] {
        let (_, count, carrier_count) = sizes(name);
        let layer = usize::from(name);
        let sent = packets(&mut random, count);
        let (mut carriers, mut should) = (vec![0; carrier_count], vec![0; carrier_count]);
        let (number, after) = record::code(&coding, name, &sent, &mut carriers);
        (_, alone[layer]) = entries::code(&alone[layer], &sent, &mut should);
        assert_eq!(number, 0);
        let (old, new) = (
            &sent[PACKET * (count - 2)..][..PACKET],
            packets(&mut random, 1),
        );
        let (number, after) = record::replace(&after, name, &mut carriers, count - 2, old, &new);
        (_, alone[layer]) = entries::replace(&alone[layer], &mut should, count - 2, old, &new);
        assert_eq!(number, 0);
        assert!(carriers == should && after.layers == alone && after.good());
        coding = after;
        let (mut slots, mut slots_alone) = (vec![9; SLOT * count], vec![9; SLOT * count]);
        let (number, given, after) = record::back(&receiving, name, &carriers, &mut slots);
        let (_, given_alone, state) =
            receiving::back(&receivers[layer], &carriers, &mut slots_alone);
        receivers[layer] = state;
        assert_eq!((number, given), (0, given_alone));
        assert!(slots == slots_alone && after.layers == receivers && after.good());
        receiving = after;
    }
}

/// Words of a layer, by themselves.
#[test]
fn a_word_is_its_layers() {
    let mut random = Random::new(18);
    let coding = Coding::start(1, LAYERS).1;
    let word = random.bytes(204);
    for name in 0..3 {
        let (numbers, count, _) = sizes(name);
        let alone = State::start(numbers).1;
        let (mut out, mut should) = (vec![0; 204], vec![0; 204]);
        let past = record::disperse_interleave(&coding, name, count, &word, &mut out);
        assert_eq!((past, &out), ((9, coding.clone()), &vec![0; 204]));
        let last = count - 1;
        let (number, after) = record::disperse_interleave(&coding, name, last, &word, &mut out);
        let (_, alone) = entries::disperse_interleave(&alone, last, &word, &mut should);
        assert_eq!((number, &out), (0, &should));
        for other in 0..3 {
            let same = after.layers[other] == coding.layers[other];
            assert_eq!(same, other != usize::from(name));
        }
        assert_eq!(after.layers[usize::from(name)], alone);
    }
}

/// 7 before 13, 13 before what the layer itself refuses, and a refused call leaves everything.
#[test]
fn refusals_stand_in_their_order() {
    let good = Coding::start(1, [[2, 1, 1], UNUSED, [4, 2, 1]]).1;
    let spoiled = Record {
        mode: 2,
        ..good.clone()
    };
    let receiver = Receiving::start(1, [UNUSED, [2, 1, 1], UNUSED]).1;
    for (record, name, number) in [
        (&spoiled, 0, 7),
        (&spoiled, 1, 7),
        (&spoiled, 255, 7),
        (&good, 1, 13),
        (&good, 3, 13),
        (&good, 255, 13),
    ] {
        let mut area = [9; 7];
        for (answer, after) in [
            record::code(record, name, &[], &mut area),
            record::disperse_interleave(record, name, usize::MAX, &[], &mut area),
            record::replace(record, name, &mut area, usize::MAX, &[], &[]),
        ] {
            assert_eq!(answer, number);
            assert_eq!(after, *record);
        }
        assert_eq!(area, [9; 7]);
    }
    for name in [0, 2, 3, 255] {
        let (answer, given, after) = record::back(&receiver, name, &[], &mut []);
        assert_eq!((answer, given), (13, 0));
        assert_eq!(after, receiver);
    }
    assert_eq!(record::back(&receiver, 1, &[], &mut []).0, 6);
    assert_eq!(record::code(&good, 2, &[], &mut []).0, 5);
}
