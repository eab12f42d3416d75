//! What is refused, in which order, and that it alters nothing.

use crate::common::{layers, packets};
use second::random::Random;
use warintaya::LayerName::A;
use warintaya::{Coder, Layer, Receiver, Refusal, PACKET, SLOT, WORD};

/// A coder behind a frame, the frame's packets and its carriers.
fn coded(layer: Layer, random: &mut Random) -> (Coder, Vec<u8>, Vec<u8>) {
    let mut coder = Coder::new(layer);
    let frame = packets(random, layer.packets());
    let mut carriers = vec![0; layer.carriers()];
    let done = coder.code(A, &frame, &mut carriers);
    done.expect("a good frame");
    (coder, frame, carriers)
}

/// One byte is another, for a moment.
fn with(bytes: &[u8], place: usize, value: u8) -> Vec<u8> {
    let mut changed = bytes.to_vec();
    changed[place] = value;
    changed
}

#[test]
fn coding_refuses() {
    let mut random = Random::new(21);
    for layer in layers() {
        let (mut coder, frame, carriers) = coded(layer, &mut random);
        let before = coder.clone();
        let last = frame.len() - PACKET;
        let (short, headless) = (&frame[1..], with(&frame, last, 0x46));
        let cases: [(&[u8], usize, Refusal); 5] = [
            (short, layer.carriers() - 1, Refusal::Length),
            (&[], layer.carriers(), Refusal::Length),
            (&headless, layer.carriers() - 1, Refusal::CarriersLength),
            (&frame, 0, Refusal::CarriersLength),
            (&headless, layer.carriers(), Refusal::Sync),
        ];
        for (packets, length, refusal) in cases {
            let mut lent = carriers[..length].to_vec();
            assert_eq!(coder.code(A, packets, &mut lent), Err(refusal));
            assert!(coder == before && lent == carriers[..length]);
        }
    }
}

/// The carriers, the packet's number, the old packet, the new one, and what is refused.
type Replacement<'a> = (&'a [u8], usize, &'a [u8], &'a [u8], Refusal);

#[test]
fn replacing_refuses() {
    let mut random = Random::new(22);
    for layer in layers() {
        let (mut coder, frame, carriers) = coded(layer, &mut random);
        let before = coder.clone();
        let (old, new) = (&frame[..PACKET], &packets(&mut random, 1));
        let (large, headless) = (with(&carriers, 7, 1 << layer.v()), with(new, 0, 0x48));
        let past = layer.packets();
        let cases: [Replacement; 7] = [
            (
                &large[1..],
                past,
                &old[1..],
                &headless,
                Refusal::CarriersLength,
            ),
            (&large, past, &old[1..], &headless, Refusal::Length),
            (&large, past, old, &headless[1..], Refusal::Length),
            (&large, past, old, &headless, Refusal::Number),
            (&large, usize::MAX, old, &headless, Refusal::Number),
            (&large, 0, old, &headless, Refusal::Value),
            (&carriers, past - 1, old, &headless, Refusal::Sync),
        ];
        for (lent, number, old, new, refusal) in cases {
            let mut after = lent.to_vec();
            let done = coder.replace(A, &mut after, number, old, new);
            assert_eq!(done, Err(refusal.into()));
            assert!(coder == before && after == lent);
        }
        let mut after = carriers.clone();
        let replaced = coder.replace(A, &mut after, past - 1, &headless, new);
        assert_eq!(replaced, Err(Refusal::Sync.into()));
    }
}

#[test]
fn going_back_refuses() {
    let mut random = Random::new(23);
    for layer in layers() {
        let (_, _, carriers) = coded(layer, &mut random);
        let mut receiver = Receiver::new(layer);
        receiver.receive(A, &carriers).expect("good carriers");
        let before = receiver.clone();
        let large = with(&carriers, layer.carriers() - 1, 1 << layer.v());
        let room = SLOT * layer.packets();
        let cases: [(&[u8], usize, Refusal); 3] = [
            (&large[1..], room - 1, Refusal::CarriersLength),
            (&large, room - 1, Refusal::Length),
            (&large, room, Refusal::Value),
        ];
        for (lent, length, refusal) in cases {
            let slots = random.bytes(length);
            let mut after = slots.clone();
            assert_eq!(receiver.back(A, lent, &mut after), Err(refusal));
            assert!(receiver == before && after == slots);
        }
        assert_eq!(receiver.receive(A, &[]), Err(Refusal::CarriersLength));
    }
}

#[test]
fn words_refuse() {
    let layer = layers()[0];
    let mut coder = Coder::new(layer);
    let (word, mut out) = ([0; WORD], [9; WORD]);
    let past = layer.packets();
    assert_eq!(
        coder.disperse_interleave(A, past, &word[1..], &mut out),
        Err(Refusal::Length)
    );
    assert_eq!(
        coder.disperse_interleave(A, past, &word, &mut out[1..]),
        Err(Refusal::Length)
    );
    assert_eq!(
        coder.disperse_interleave(A, past, &word, &mut out),
        Err(Refusal::Number)
    );
    assert_eq!(out, [9; WORD]);
    assert!(coder == Coder::new(layer));
}
