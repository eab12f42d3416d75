//! Packets that are replaced late: carriers and record are then what coding again gives, and so is the frame after it.

use second::frame::PACKET;

use crate::cases::code::{packets, Contents};
use crate::check::{Check, Checked};
use crate::expected;
use crate::records::{Kind, Record};
use crate::states;

/// A frame that is coded already, and what it was coded from.
struct Coded {
    numbers: [u8; 4],
    before: Record,
    packets: Vec<u8>,
    carriers: Vec<u8>,
    after: Record,
}

/// A frame of random packets from a random good state.
fn coded(check: &mut Check, numbers: [u8; 4]) -> Coded {
    let (count, carrier_count) = expected::sizes(numbers);
    let state = states::random(&mut check.random, numbers);
    let before = check.record(Kind::Coding, &state);
    let packets = packets(&mut check.random, count, Contents::Random);
    let (mut carriers, mut after) = (vec![0; carrier_count], before.clone());
    expected::code(&mut after, &packets, &mut carriers);
    Coded {
        numbers,
        before,
        packets,
        carriers,
        after,
    }
}

/// The carriers and the record of the frame coded again, with another packet in the place of this one.
fn again(frame: &Coded, number: usize, packet: &[u8]) -> (Vec<u8>, Record) {
    let mut packets = frame.packets.clone();
    packets[PACKET * number..][..PACKET].copy_from_slice(packet);
    let (mut carriers, mut after) = (vec![0; frame.carriers.len()], frame.before.clone());
    expected::code(&mut after, &packets, &mut carriers);
    (carriers, after)
}

/// Another packet: by one bit, or altogether.
pub fn other(check: &mut Check, old: &[u8]) -> Vec<u8> {
    if check.random.below(4) == 0 {
        let mut packet = old.to_vec();
        let place = 1 + check.random.below(187) as usize;
        packet[place] ^= 1 << check.random.below(8);
        return packet;
    }
    packets(&mut check.random, 1, Contents::Random)
}

/// Replaces a packet; then the frame after it is coded, and the packet is replaced back.
fn one(check: &mut Check, frame: &Coded, number: usize) -> Checked {
    let old = frame.packets[PACKET * number..][..PACKET].to_vec();
    let new = other(check, &old);
    check.case(format!("settings {:?}, packet {number}", frame.numbers));
    let (answer, record, carriers) =
        check.replace(&frame.after, &frame.carriers, number, &old, &new)?;
    check.meant(answer, 0)?;
    let (carriers_again, record_again) = again(frame, number, &new);
    check.same("the carriers and coding again", &carriers, &carriers_again)?;
    check.same(
        "the record and coding again",
        &record.area,
        &record_again.area,
    )?;
    if number % 4 == 3 {
        let following = packets(
            &mut check.random,
            expected::sizes(frame.numbers).0,
            Contents::Random,
        );
        check.code(&record, &following, frame.carriers.len())?;
    }
    let (_, record, carriers) = check.replace(&record, &carriers, number, &new, &old)?;
    check.same("the carriers, replaced back", &carriers, &frame.carriers)?;
    check.same("the record, replaced back", &record.area, &frame.after.area)?;
    let (_, record, carriers) = check.replace(&record, &carriers, number, &old, &old)?;
    check.same("the carriers, old for old", &carriers, &frame.carriers)?;
    check.same("the record, old for old", &record.area, &frame.after.area)
}

/// Carriers that were never coded, and a state that no frame has left.
fn never_coded(check: &mut Check, numbers: [u8; 4]) -> Checked {
    let (count, carrier_count) = expected::sizes(numbers);
    let carriers: Vec<u8> = (0..carrier_count)
        .map(|_| check.random.below(1 << numbers[1]) as u8)
        .collect();
    let state = states::random(&mut check.random, numbers);
    let record = check.record(Kind::Coding, &state);
    let number = check.random.below(count as u64) as usize;
    let two = packets(&mut check.random, 2, Contents::Random);
    check.case(format!(
        "settings {numbers:?}, packet {number}, carriers never coded"
    ));
    let (answer, _, _) =
        check.replace(&record, &carriers, number, &two[..PACKET], &two[PACKET..])?;
    check.meant(answer, 0)
}

/// Document 00's letter: a layer has grown from one segment to three, and the replacement counts by the old frame. It names packet
/// 5 and means packet 5 + P of one segment. What comes out is the frame with packet 5 spoiled, coded as if it were meant: the
/// difference of two codewords is a codeword, so that a receiver takes it as good.
fn letter(check: &mut Check) -> Checked {
    let frame = coded(check, [3, 2, 2, 3]);
    let (one_segment, _) = expected::sizes([3, 2, 2, 1]);
    let (meant, named) = (5 + one_segment, 5);
    let old = frame.packets[PACKET * meant..][..PACKET].to_vec();
    let new = packets(&mut check.random, 1, Contents::Random);
    check.case("the letter: a packet counted by another frame");
    let (_, record, carriers) = check.replace(&frame.after, &frame.carriers, named, &old, &new)?;
    let mut spoiled = frame.packets[PACKET * named..][..PACKET].to_vec();
    for ((byte, old), new) in spoiled.iter_mut().zip(&old).zip(&new) {
        *byte ^= old ^ new;
    }
    let (carriers_again, record_again) = again(&frame, named, &spoiled);
    check.same("the spoiled packet's carriers", &carriers, &carriers_again)?;
    check.same(
        "the spoiled packet's record",
        &record.area,
        &record_again.area,
    )?;
    // counted by one segment the packet that is meant isn't there: the record's own settings refuse it
    let small = coded(check, [3, 2, 2, 1]);
    check.case("the letter: a packet of three segments in a frame of one");
    let (answer, _, _) = check.replace(&small.after, &small.carriers, meant, &old, &new)?;
    check.meant(answer, 9)
}

pub fn run(check: &mut Check) -> Checked {
    for v in [2, 4, 6] {
        for rate in 1..=5 {
            let frame = coded(check, [1, v, rate, 1]);
            let (count, _) = expected::sizes(frame.numbers);
            for number in 0..count {
                one(check, &frame, number)?;
            }
            never_coded(check, frame.numbers)?;
        }
    }
    for numbers in [
        [2, 2, 1, 1],
        [2, 4, 3, 2],
        [2, 6, 5, 1],
        [3, 2, 4, 2],
        [3, 4, 2, 1],
        [3, 6, 1, 1],
        [1, 6, 5, 13],
    ] {
        let frame = coded(check, numbers);
        let (count, _) = expected::sizes(numbers);
        for number in count - 12..count {
            one(check, &frame, number)?;
        }
        for _ in 0..4 {
            let number = check.random.below(count as u64) as usize;
            one(check, &frame, number)?;
        }
        never_coded(check, numbers)?;
    }
    let largest = coded(check, [3, 6, 5, 13]);
    let (count, _) = expected::sizes(largest.numbers);
    for number in [0, 1717, count - 12, count - 1] {
        one(check, &largest, number)?;
    }
    letter(check)
}
