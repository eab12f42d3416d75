//! Frames that are coded.

use second::frame::{PACKET, SYNC};
use second::random::Random;

use crate::cases::settings;
use crate::check::{Check, Checked};
use crate::expected;
use crate::records::Kind;
use crate::states;

/// What the packets hold behind their first byte.
#[derive(Clone, Copy, Debug)]
pub enum Contents {
    Random,
    All(u8),
}

/// So many packets, each with 47 in front.
pub fn packets(random: &mut Random, count: usize, contents: Contents) -> Vec<u8> {
    let mut packets = match contents {
        Contents::Random => random.bytes(PACKET * count),
        Contents::All(byte) => vec![byte; PACKET * count],
    };
    for packet in packets.chunks_mut(PACKET) {
        packet[0] = SYNC;
    }
    packets
}

/// Frames in a row in a layer, each from the state that the one before has left.
fn frames(check: &mut Check, what: &str, state: Vec<u8>, contents: &[Contents]) -> Checked {
    let numbers = [state[0], state[1], state[2], state[3]];
    let (count, carriers) = expected::sizes(numbers);
    let mut record = check.record(Kind::Coding, &state);
    for (turn, &contents) in contents.iter().enumerate() {
        check.case(format!(
            "settings {numbers:?}, {what} state, frame {turn} in a row, packets {contents:?}"
        ));
        let packets = packets(&mut check.random, count, contents);
        let moved = check.code(&record, &packets, carriers)?;
        check.meant(moved.answer, 0)?;
        record = moved.record;
    }
    Ok(())
}

/// Two frames from the fresh state and two from a random one.
fn two_each(check: &mut Check, numbers: [u8; 4]) -> Checked {
    frames(
        check,
        "fresh",
        states::fresh(numbers),
        &[Contents::Random; 2],
    )?;
    let state = states::random(&mut check.random, numbers);
    frames(check, "random", state, &[Contents::Random; 2])
}

pub fn run(check: &mut Check) -> Checked {
    for numbers in settings(1) {
        two_each(check, numbers)?;
        let state = states::random(&mut check.random, numbers);
        frames(
            check,
            "random",
            state,
            &[Contents::All(0), Contents::All(255)],
        )?;
        frames(
            check,
            "largest",
            states::largest(numbers),
            &[Contents::All(255), Contents::All(SYNC)],
        )?;
    }
    for numbers in settings(2) {
        two_each(check, numbers)?;
    }
    // five frames on: what is kept too long or forgotten would show
    for numbers in [[1, 2, 4, 1], [1, 6, 5, 3], [2, 4, 2, 1]] {
        frames(
            check,
            "fresh",
            states::fresh(numbers),
            &[Contents::Random; 5],
        )?;
    }
    for numbers in [[1, 2, 1, 13], [2, 4, 3, 13], [3, 6, 1, 13], [3, 6, 5, 13]] {
        two_each(check, numbers)?;
    }
    frames(
        check,
        "fresh",
        states::fresh([3, 6, 5, 13]),
        &[Contents::All(0), Contents::All(255)],
    )
}
