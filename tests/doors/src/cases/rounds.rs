//! Rounds of random cases, as many as one likes: in each a layer in a record beside others, words by themselves, frames in a row
//! that are coded and in which packets are replaced, frames that go back disturbed, and refused calls of every door.

use second::frame::PACKET;

use crate::cases::code::{packets, Contents};
use crate::cases::link::{Link, Way};
use crate::cases::replace::other;
use crate::cases::{back_refused, refused, replace_refused, starts, words};
use crate::check::{Check, Checked};
use crate::expected;
use crate::progress::Progress;
use crate::receiving_states;
use crate::records::{Kind, Record};
use crate::states;

/// What a round has of each: words by themselves, frames coded in a row, packets replaced in each, frames received, refused calls
/// of each door.
const WORDS: usize = 8;
const CODED: usize = 12;
const REPLACED: usize = 3;
const RECEIVED: usize = 3;
const REFUSED: usize = 16;

/// The most packets of a frame that is coded in a layer beside the round's own.
const SMALL: usize = 24;

/// The layer of a round. Every v and rate comes in fifteen rounds; small layers come most often, since the second program takes its
/// time for each packet, and any layer now and then.
fn layer(check: &mut Check, round: u64) -> [u8; 4] {
    let (v, rate) = (2 + round / 5 % 3 * 2, 1 + round % 5);
    let mut below = |end| check.random.below(end);
    let (mode, segments) = match below(32) {
        0..=17 => (1, 1),
        18..=21 => (2, 1),
        22..=25 => (1, 2 + below(3)),
        26 | 27 => (3, 1),
        28..=30 => (1, 1 + below(13)),
        _ => (1 + below(3), 1 + below(13)),
    };
    [mode as u8, v as u8, rate as u8, segments as u8]
}

/// A packet's number: the first, the last, the last but one, the middle one, one of the last twelve, which reach into the state, or
/// any.
fn place(check: &mut Check, count: usize) -> usize {
    match check.random.below(8) {
        0 => 0,
        1 => count - 1,
        2 => count - 2,
        3 => count / 2,
        4 => count - 12 + check.random.below(12) as usize,
        _ => check.random.below(count as u64) as usize,
    }
}

/// A frame that is coded already: its packets, its carriers, and the record behind it, which names its layer.
struct Coded {
    packets: Vec<u8>,
    carriers: Vec<u8>,
    record: Record,
}

/// Replaces a packet by another, by itself, or with an old one named that was not coded. What stands there then is the packet that
/// was coded with the difference of old and new.
fn replace(check: &mut Check, what: &str, frame: &mut Coded) -> Checked {
    let number = place(check, frame.packets.len() / PACKET);
    let coded = frame.packets[PACKET * number..][..PACKET].to_vec();
    let (kind, old, new) = match check.random.below(8) {
        0 => ("old for old", coded.clone(), coded.clone()),
        1 => {
            let two = packets(&mut check.random, 2, Contents::Random);
            let (old, new) = two.split_at(PACKET);
            ("another named as old", old.to_vec(), new.to_vec())
        }
        _ => ("new for old", coded.clone(), other(check, &coded)),
    };
    check.case(format!("{what}, packet {number}, {kind}"));
    let (answer, record, carriers) =
        check.replace(&frame.record, &frame.carriers, number, &old, &new)?;
    check.meant(answer, 0)?;
    (frame.record, frame.carriers) = (record, carriers);
    let stands = &mut frame.packets[PACKET * number..][..PACKET];
    for ((byte, old), new) in stands.iter_mut().zip(&old).zip(&new) {
        *byte ^= old ^ new;
    }
    Ok(())
}

/// The layer of the next frame: the round's own, or now and then another one that is small.
fn layer_of_frame(check: &mut Check, record: &Record, own: u8) -> u8 {
    let used = record.used();
    let name = used[check.random.below(used.len() as u64) as usize];
    let (count, _) = expected::sizes(record.naming(name).numbers());
    if check.random.below(2) == 0 && count <= SMALL {
        return name;
    }
    own
}

/// The next frame of the layer that the record names, with packets replaced in it: the record is then what coding it again leaves.
fn frame(check: &mut Check, what: &str, mut record: Record) -> Checked<Record> {
    let (count, carrier_count) = expected::sizes(record.numbers());
    check.case(what);
    let packets = packets(&mut check.random, count, Contents::Random);
    let moved = check.code(&record, &packets, carrier_count)?;
    check.meant(moved.answer, 0)?;
    let mut frame = Coded {
        packets,
        carriers: moved.written,
        record: moved.record,
    };
    for _ in 0..REPLACED {
        replace(check, what, &mut frame)?;
    }
    let mut carriers = vec![0; carrier_count];
    expected::code(&mut record, &frame.packets, &mut carriers);
    check.same("the carriers and coding again", &frame.carriers, &carriers)?;
    check.same(
        "the record and coding again",
        &frame.record.area,
        &record.area,
    )?;
    Ok(record)
}

/// Frames in a row, each from the record that the replacements in the one before have left.
fn coded_and_replaced(check: &mut Check, numbers: [u8; 4]) -> Checked {
    let state = match check.random.below(4) {
        0 => states::largest(numbers),
        1 => states::random(&mut check.random, numbers),
        _ => states::fresh(numbers),
    };
    let mut record = check.record(Kind::Coding, &state);
    let own = record.layer;
    for turn in 0..CODED {
        record.layer = layer_of_frame(check, &record, own);
        let what = format!(
            "settings {:?}, frame {turn} in a row beside layer {own} of {numbers:?}",
            record.numbers()
        );
        record = frame(check, &what, record)?;
    }
    Ok(())
}

/// Frames in a row that are disturbed on their way.
fn received(check: &mut Check, numbers: [u8; 4]) -> Checked {
    let mut link = Link::new(numbers);
    let mut record = check.record(Kind::Receiving, &receiving_states::fresh(numbers));
    for _ in 0..RECEIVED {
        let way = Way::disturbing(&mut check.random);
        link.frame(check, &mut record, "in a row", way)?;
    }
    Ok(())
}

/// Refused calls of every door.
fn all_refused(check: &mut Check, numbers: [u8; 4]) -> Checked {
    refused::together(check, numbers)?;
    for _ in 0..REFUSED {
        starts::random_start(check)?;
        words::random_faults(check, numbers)?;
        replace_refused::random_faults(check, numbers)?;
        back_refused::random_faults(check, numbers)?;
    }
    Ok(())
}

/// So many rounds.
pub fn run(check: &mut Check, rounds: u64) -> Checked {
    let mut progress = Progress::new();
    for round in 0..rounds {
        progress.say(&format!("round {} of {rounds}", round + 1));
        let numbers = layer(check, round);
        words::random_words(check, numbers, WORDS)?;
        coded_and_replaced(check, numbers)?;
        received(check, numbers)?;
        all_refused(check, numbers)?;
    }
    Ok(())
}
