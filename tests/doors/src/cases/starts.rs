//! Starting records, and the sizes of a layer's frames.

use crate::check::{Check, Checked};
use crate::expected;
use crate::records::{neighbour, Kind, Layers, NAMES, SEGMENTS};

const KINDS: [Kind; 2] = [Kind::Coding, Kind::Receiving];

const UNUSED: [u8; 3] = [0; 3];

/// A start into an area of so many bytes with old contents.
fn start(check: &mut Check, kind: Kind, mode: u8, layers: Layers, length: usize) -> Checked<u8> {
    check.case(format!("mode {mode}, layers {layers:?}, length {length}"));
    let area = check.random.bytes(length);
    check.start(kind, mode, layers, &area)
}

/// Both kinds of records, which both have to answer with this number.
fn both(check: &mut Check, mode: u8, layers: Layers, number: u8) -> Checked {
    for kind in KINDS {
        let answer = start(check, kind, mode, layers, kind.length())?;
        check.meant(answer, number)?;
    }
    Ok(())
}

/// A layer as A, B or C in turn, among others that have room: it is refused as it is alone, but that three zeros are no layer.
fn layer(check: &mut Check, numbers: [u8; 4]) -> Checked {
    let [mode, v, rate, segments] = numbers;
    let place = usize::from(check.next_layer());
    let mut room = SEGMENTS.saturating_sub(segments);
    let mut layers = NAMES.map(|_| {
        let layer = neighbour(&mut check.random, room);
        room -= layer[2];
        layer
    });
    layers[place] = [v, rate, segments];
    let alone = expected::refusal(numbers);
    let no_layer = layers[place] == UNUSED && alone != 1;
    both(check, mode, layers, if no_layer { 0 } else { alone })?;
    check.sizes(numbers)
}

/// Every legal layer and those around them, and every value of each number beside others that are legal.
fn every_layer(check: &mut Check) -> Checked {
    for mode in 0..=4 {
        for v in 0..=8 {
            for rate in 0..=6 {
                for segments in 0..=15 {
                    layer(check, [mode, v, rate, segments])?;
                }
            }
        }
    }
    for numbers in [[1, 2, 1, 1], [2, 4, 3, 7], [3, 6, 5, 13]] {
        for place in 0..4 {
            for value in 0..=255 {
                let mut numbers = numbers;
                numbers[place] = value;
                layer(check, numbers)?;
            }
        }
    }
    Ok(())
}

/// Every choice of segments for the three layers, none for one that is unused: thirteen in all, or 12.
fn every_sum(check: &mut Check) -> Checked {
    for a in 0..=13 {
        for b in 0..=13 {
            for c in 0..=13 {
                let (v, rate) = (2 + 2 * (a % 3), 1 + b % 5);
                let sizes = [a, b, c];
                let layers = sizes.map(|n| if n == 0 { UNUSED } else { [v, rate, n] });
                let number = if a + b + c > SEGMENTS { 12 } else { 0 };
                both(check, 1 + c % 3, layers, number)?;
            }
        }
    }
    Ok(())
}

/// Layers that are not legal, and what refuses each.
const FAULTS: [([u8; 3], u8); 8] = [
    ([0, 1, 1], 2),
    ([0, 0, 1], 2),
    ([3, 6, 14], 2),
    ([2, 0, 1], 3),
    ([6, 6, 0], 3),
    ([4, 0, 0], 3),
    ([4, 1, 0], 4),
    ([4, 5, 14], 4),
];

/// Two layers that are not legal: the first is answered, of A, B and C; so is one that isn't legal beside too many segments, and
/// before all of them the mode.
fn several_faults(check: &mut Check) -> Checked {
    for (first, second) in [(0, 1), (0, 2), (1, 2)] {
        for (fault, number) in FAULTS {
            for (other, _) in FAULTS {
                let mut layers = [neighbour(&mut check.random, 13); 3];
                (layers[first], layers[second]) = (fault, other);
                both(check, 2, layers, number)?;
                both(check, 0, layers, 1)?;
                both(check, 4, layers, 1)?;
            }
            for place in NAMES {
                let mut layers = [[2, 3, 13]; 3];
                layers[usize::from(place)] = fault;
                both(check, 1, layers, number)?;
            }
        }
    }
    Ok(())
}

/// A start into an area of a length that no such record has: 7 behind every other number, and the area is left alone.
fn other_lengths(check: &mut Check) -> Checked {
    for (mode, layers, number) in [
        (1, [UNUSED; 3], 7),
        (1, [[2, 1, 1], UNUSED, UNUSED], 7),
        (3, [UNUSED, UNUSED, [6, 5, 13]], 7),
        (2, [[2, 2, 1], [6, 3, 11], [4, 1, 1]], 7),
        (0, [UNUSED; 3], 1),
        (0, [[3, 6, 14]; 3], 1),
        (3, [UNUSED, [3, 6, 14], [6, 5, 14]], 2),
        (3, [[6, 6, 14], [3, 1, 1], UNUSED], 3),
        (3, [[6, 5, 1], [2, 1, 1], [6, 5, 14]], 4),
        (3, [[6, 5, 1], [2, 1, 12], [6, 5, 1]], 12),
    ] {
        for (kind, other) in [(KINDS[0], KINDS[1]), (KINDS[1], KINDS[0])] {
            let (state, whole) = (kind.state_length(), kind.length());
            for length in [0, 1, state, whole - 1, whole + 1, 2 * whole, other.length()] {
                let answer = start(check, kind, mode, layers, length)?;
                check.meant(answer, number)?;
            }
        }
    }
    Ok(())
}

/// A start by random numbers around the legal ones, now and then into an area of another length.
pub fn random_start(check: &mut Check) -> Checked {
    let mode = [0, 1, 1, 2, 2, 3, 3, 4][check.random.below(8) as usize];
    let layers = NAMES.map(|_| match check.random.below(6) {
        0 | 1 => UNUSED,
        2 | 3 => neighbour(&mut check.random, 6),
        4 => neighbour(&mut check.random, 13),
        _ => [9, 7, 16].map(|end| check.random.below(end) as u8),
    });
    for kind in KINDS {
        let length = match check.random.below(4) {
            0 => check.random.below(2 * kind.length() as u64) as usize,
            _ => kind.length(),
        };
        start(check, kind, mode, layers, length)?;
    }
    for [v, rate, segments] in layers {
        check.sizes([mode, v, rate, segments])?;
    }
    Ok(())
}

pub fn run(check: &mut Check) -> Checked {
    every_layer(check)?;
    every_sum(check)?;
    several_faults(check)?;
    other_lengths(check)
}
