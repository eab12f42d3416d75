//! The packets of a coded frame, read back, and replacements that look at them first.

use crate::common::{layers, packets, stations};
use second::random::Random;
use warintaya::LayerName::A;
use warintaya::{Coder, Layer, LayerName, NotReplaced, Refusal, PACKET};

/// A frame of random packets: the packets, its carriers.
fn coded(coder: &mut Coder, name: LayerName, random: &mut Random) -> (Vec<u8>, Vec<u8>) {
    let layer = coder.station().layer(name).expect("a layer that is used");
    let frame = packets(random, layer.packets());
    let mut carriers = vec![0; layer.carriers()];
    let done = coder.code(name, &frame, &mut carriers);
    done.expect("a good frame");
    (frame, carriers)
}

fn at(packets: &[u8], number: usize) -> &[u8] {
    &packets[PACKET * number..][..PACKET]
}

/// Every packet of every frame comes back, in every layer of a station in turn: from the record, and from the frame behind it.
#[test]
fn the_packets_of_a_coded_frame_are_read_back() {
    let mut random = Random::new(61);
    for station in stations() {
        let mut coder = Coder::new(station);
        for _ in 0..3 {
            for (name, layer) in station.used() {
                let (frame, carriers) = coded(&mut coder, name, &mut random);
                let before = coder.clone();
                let read = coder.coded_packets(name, &carriers);
                assert!(read.as_ref() == Ok(&frame), "{station}, {name}");
                for number in [0, 1, layer.packets() - 12, layer.packets() - 1] {
                    let read = coder.coded_packet(name, &carriers, number);
                    assert!(read.map(|packet| packet.to_vec()) == Ok(at(&frame, number).to_vec()));
                }
                assert!(coder == before, "reading alters nothing");
                let (_, next) = coded(&mut coder, name, &mut random);
                assert!(station.coded_packets(name, &carriers, &next) == Ok(frame));
            }
        }
    }
}

/// A packet that was not coded there is refused, whatever its number, and nothing is altered; the number at which it does stand
/// is told.
#[test]
fn another_old_packet_is_refused() {
    let mut random = Random::new(62);
    for layer in layers() {
        let mut coder = Coder::new(layer);
        coded(&mut coder, A, &mut random);
        let (frame, carriers) = coded(&mut coder, A, &mut random);
        let new = packets(&mut random, 1);
        for number in [0, 5, layer.packets() - 12, layer.packets() - 1] {
            let there = (number + 3) % layer.packets();
            let byte = 1 + random.below(187) as usize;
            let mut altered = at(&frame, number).to_vec();
            altered[byte] ^= 0x20;
            let other = at(&frame, number).iter().zip(at(&frame, there));
            let first = other.clone().position(|(one, other)| one != other);
            let first = first.expect("two packets that differ");
            for (old, byte, found) in [
                (&altered[..], byte, None),
                (at(&frame, there), first, Some(there)),
            ] {
                let (before, mut after) = (coder.clone(), carriers.clone());
                let done = coder.replace(A, &mut after, number, old, &new);
                assert_eq!(done, Err(NotReplaced::OtherPacket { byte, found }));
                assert!(coder == before && after == carriers);
            }
        }
    }
}

/// Carriers and a record that aren't of one frame, and damaged carriers, are refused.
#[test]
fn what_does_not_belong_together_is_refused() {
    let mut random = Random::new(63);
    for layer in layers() {
        let mut coder = Coder::new(layer);
        let (_, first) = coded(&mut coder, A, &mut random);
        let (frame, carriers) = coded(&mut coder, A, &mut random);
        let last = layer.packets() - 1;
        let apart = |read: Result<_, NotReplaced>| matches!(read, Err(NotReplaced::NotTogether { packet }) if packet <= last);
        assert!(apart(coder.coded_packets(A, &first)));
        assert!(apart(Coder::new(layer).coded_packets(A, &carriers)));
        let station = coder.station();
        assert!(apart(station.coded_packets(A, &carriers, &first)));
        let mut damaged = carriers.clone();
        damaged[layer.carriers() / 2] ^= 1;
        let corrected = coder.coded_packets(A, &damaged) == Ok(frame.clone());
        assert!(corrected || apart(coder.coded_packets(A, &damaged)));
        for carrier in &mut damaged[2000..2600] {
            *carrier ^= 1;
        }
        let (before, lent) = (coder.clone(), damaged.clone());
        let (old, new) = (at(&frame, last), packets(&mut random, 1));
        let done = coder.replace(A, &mut damaged, last, old, &new);
        assert!(apart(done.map(|()| Vec::new())));
        assert!(coder == before && damaged == lent);
    }
}

/// Refusals come in their order, and with their numbers.
#[test]
fn reading_refuses() {
    let layer = Layer::new(1, 2, 1, 1).expect("legal settings");
    let (mut coder, mut random) = (Coder::new(layer), Random::new(64));
    let (_, carriers) = coded(&mut coder, A, &mut random);
    let mut large = carriers.clone();
    large[7] = 4;
    let refused =
        |layer, carriers: &[u8], number| coder.coded_packet(layer, carriers, number).err();
    let count = layer.packets();
    for (layer, carriers, number, refusal) in [
        (LayerName::B, &[][..], count, Refusal::LayerUnused),
        (A, &large[1..], count, Refusal::CarriersLength),
        (A, &large, count, Refusal::Number),
        (A, &large, usize::MAX, Refusal::Number),
        (A, &large, 0, Refusal::Value),
    ] {
        assert_eq!(refused(layer, carriers, number), Some(refusal.into()));
    }
    let station = coder.station();
    let next = station.coded_packets(A, &carriers, &large);
    assert_eq!(next, Err(Refusal::Value.into()));
    assert!(coder.coded_packet(A, &carriers, count - 1).is_ok());
}
