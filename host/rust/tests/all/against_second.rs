//! The safe types held to the independent second program, by fixed seeds: what is written, what is left, and the states.

use crate::common::{layers, packets, stations};
use second::layer::Numbers;
use second::random::Random;
use second::{entries, receiving, state, words};
use warintaya::{Coder, Layer, LayerName, Packet, Received, Receiver, PACKET, SLOT, WORD};

/// The second program's state of a coder's layer.
fn second_state(coder: &Coder, name: LayerName) -> state::State {
    state::State::from_bytes(coder.state(name)).expect("the length of a state")
}

/// The states of the other two layers, before and after, are the same.
fn others_stay<'a>(name: LayerName, states: impl Fn(LayerName) -> (&'a [u8], &'a [u8])) {
    for other in LayerName::ALL.into_iter().filter(|other| *other != name) {
        let (before, after) = states(other);
        assert!(before == after, "{name} alters {other}");
    }
}

/// Turns so many of a thousand carrier bits.
fn disturb(random: &mut Random, v: u8, carriers: &mut [u8], often: u64) {
    for carrier in carriers {
        for bit in 0..v {
            *carrier ^= u8::from(random.below(1000) < often) << bit;
        }
    }
}

#[test]
fn sizes_are_those_of_table_4() {
    let mut legal = 0;
    for mode in 0..=4 {
        for v in 0..=7 {
            for rate in 0..=6 {
                for segments in 0..=14 {
                    let sizes = Numbers::from([mode, v, rate, segments]).sizes();
                    match (Layer::new(mode, v, rate, segments), sizes) {
                        (Ok(layer), Ok(sizes)) => {
                            legal += 1;
                            assert_eq!(layer.packets(), sizes.packets as usize);
                            assert_eq!(layer.carriers(), sizes.carriers as usize);
                        }
                        (Err(refusal), Err(number)) => assert_eq!(refusal.number(), number),
                        (ours, _) => panic!("{mode} {v} {rate} {segments}: {ours:?}"),
                    }
                }
            }
        }
    }
    assert_eq!(legal, Layer::all().count());
}

/// Three frames of every layer of a station, in turn: each is what the second program gives for that layer alone, and the other
/// layers stay.
#[test]
fn frames_are_coded_and_packets_replaced() {
    let mut random = Random::new(11);
    for station in stations() {
        let mut coder = Coder::new(station);
        for _ in 0..3 {
            for (name, layer) in station.used() {
                let before = coder.clone();
                let frame = packets(&mut random, layer.packets());
                let mut expected = vec![0; layer.carriers()];
                let (_, after) = entries::code(&second_state(&coder, name), &frame, &mut expected);
                let mut carriers = random.bytes(layer.carriers());
                let coded = coder.code(name, &frame, &mut carriers);
                coded.expect("a good frame");
                assert!(carriers == expected, "{station}, {name}: carriers");
                assert!(
                    coder.state(name) == after.bytes(),
                    "{station}, {name}: state"
                );

                let number = random.below(layer.packets() as u64) as usize;
                let new = packets(&mut random, 1);
                let old = &frame[number * PACKET..][..PACKET];
                let second = second_state(&coder, name);
                let (_, after) = entries::replace(&second, &mut expected, number, old, &new);
                let replaced = coder.replace(name, &mut carriers, number, old, &new);
                replaced.expect("a good replacement");
                assert!(carriers == expected, "{station}, {name}: replaced carriers");
                assert!(
                    coder.state(name) == after.bytes(),
                    "{station}, {name}: replaced state"
                );
                others_stay(name, |name| (before.state(name), coder.state(name)));
            }
        }
        assert!(coder.record()[0] == station.mode());
    }
}

/// Replacing and coding again agree, for every packet of a frame, and so does the frame that follows.
#[test]
fn replacing_is_coding_again() {
    let mut random = Random::new(12);
    let layer = layers()[1];
    let mut before = Coder::new(layer);
    let mut carriers = vec![0; layer.carriers()];
    let frame = packets(&mut random, layer.packets());
    let coded = before.code(LayerName::A, &frame, &mut carriers);
    coded.expect("a good frame");
    for number in 0..layer.packets() {
        let new = packets(&mut random, 1);
        let (mut replaced, mut again) = (before.clone(), before.clone());
        let (mut one, mut other) = (carriers.clone(), carriers.clone());
        let coded = replaced.code(LayerName::A, &frame, &mut one);
        coded.expect("a good frame");
        let old = &frame[number * PACKET..][..PACKET];
        let done = replaced.replace(LayerName::A, &mut one, number, old, &new);
        done.expect("a good replacement");
        let mut changed = frame.clone();
        changed[number * PACKET..][..PACKET].copy_from_slice(&new);
        let coded = again.code(LayerName::A, &changed, &mut other);
        coded.expect("a good frame");
        assert!(one == other && replaced == again, "packet {number}");
    }
}

/// Slots, number given and state, from no noise to more than can be corrected, in every layer of a station in turn.
#[test]
fn what_is_received_is_what_the_second_program_says() {
    let mut random = Random::new(13);
    let (mut corrected, mut lost) = (0, 0);
    for station in stations() {
        let (mut coder, mut receiver) = (Coder::new(station), Receiver::new(station));
        for often in [0, 8, 30, 90] {
            for (name, layer) in station.used() {
                let before = receiver.clone();
                let frame = packets(&mut random, layer.packets());
                let mut carriers = vec![0; layer.carriers()];
                let coded = coder.code(name, &frame, &mut carriers);
                coded.expect("a good frame");
                disturb(&mut random, layer.v(), &mut carriers, often);
                for packet in received(&mut receiver, name, &carriers, &mut random).packets() {
                    match packet {
                        Packet::Corrected(bytes, _) => corrected += usize::from(bytes),
                        Packet::WrongStart | Packet::Lost => lost += 1,
                    }
                }
                others_stay(name, |name| (before.state(name), receiver.state(name)));
            }
        }
    }
    assert!(
        corrected > 100 && lost > 100,
        "{corrected} corrected, {lost} lost"
    );
}

/// What a receiver gives for a frame of a layer, held to the second program.
fn received(
    receiver: &mut Receiver,
    name: LayerName,
    carriers: &[u8],
    random: &mut Random,
) -> Received {
    let count = receiver.station().layer(name).map_or(0, Layer::packets);
    let mut expected = random.bytes(SLOT * count);
    let mut slots = expected.clone();
    let second = receiving::State::from_bytes(receiver.state(name)).expect("a state's length");
    let (_, number, after) = receiving::back(&second, carriers, &mut expected);
    let mut other = receiver.clone();
    let given = receiver.back(name, carriers, &mut slots);
    let given = given.expect("good carriers");
    assert_eq!(given, number, "{name}");
    assert!(slots == expected, "{name}: slots");
    assert!(receiver.state(name) == after.bytes(), "{name}: state");
    let received = other.receive(name, carriers).expect("good carriers");
    assert!(other == *receiver && received.slots() == &slots[..SLOT * given]);
    assert_eq!(received.packets().count(), given);
    received
}

/// The entry for one word.
#[test]
fn words_are_dispersed_and_interleaved() {
    let mut random = Random::new(14);
    for station in stations() {
        let mut coder = Coder::new(station);
        for (name, layer) in (0..20).flat_map(|_| station.used()) {
            let before = coder.clone();
            let place = random.below(layer.packets() as u64) as usize;
            let word = random.bytes(WORD);
            let (mut ours, mut expected) = (vec![0; WORD], vec![0; WORD]);
            let second = second_state(&coder, name);
            let (_, after) = entries::disperse_interleave(&second, place, &word, &mut expected);
            let done = coder.disperse_interleave(name, place, &word, &mut ours);
            done.expect("a good word");
            assert_eq!(ours, expected);
            assert_eq!(coder.state(name), after.bytes());
            others_stay(name, |name| (before.state(name), coder.state(name)));
        }
    }
}

/// The word of Figure 3.6 as word 0 of a frame: the bytes of Figure 3.8 come out on their branches, branch i's with word i, and on
/// branch 11 those that Figure 3.10 has of it.
#[test]
fn the_printed_word_comes_out() {
    let [printed, dispersed] = words::printed();
    let figure = words::hex(include_str!(
        "../../../../tests/vectors/figure-3-10-interleaved-word.hex"
    ));
    let layer = Layer::new(1, 2, 1, 1).expect("legal settings");
    let (mut coder, mut came) = (Coder::new(layer), vec![0; WORD]);
    for number in 0..12 {
        let word = if number == 0 {
            &printed[..]
        } else {
            &[0; WORD]
        };
        let done = coder.disperse_interleave(LayerName::A, number, word, &mut came);
        done.expect("a good word");
        for place in (number..WORD).step_by(12) {
            assert_eq!(came[place], dispersed[place], "byte {place}");
        }
    }
    for place in (11..WORD).step_by(12) {
        assert_eq!(came[place], figure[place], "byte {place}");
    }
}

/// A whole large frame comes back: 3,276 packets.
#[test]
fn the_largest_frame_comes_back() {
    let mut random = Random::new(15);
    let layer = Layer::new(3, 6, 5, 13).expect("legal settings");
    let frame = packets(&mut random, layer.packets());
    let mut carriers = vec![0; layer.carriers()];
    Coder::new(layer)
        .code(LayerName::A, &frame, &mut carriers)
        .expect("a good frame");
    let received = Receiver::new(layer)
        .receive(LayerName::A, &carriers)
        .expect("good carriers");
    assert_eq!(
        received.packets().count(),
        layer.packets() - warintaya::DELAY
    );
    for (sent, packet) in frame.chunks(PACKET).zip(received.packets()) {
        assert!(matches!(packet, Packet::Corrected(0, came) if came == sent));
    }
}
