//! Every kind of record that isn't good.

use second::random::Random;

use super::{Kind, Record, NAMES};

/// A record that isn't good, and why. It names a layer, which may be another than the one that is spoiled.
pub struct Bad {
    pub why: String,
    pub record: Record,
}

impl Bad {
    fn new(why: impl Into<String>, record: Record) -> Self {
        Bad {
            why: why.into(),
            record,
        }
    }
}

/// The layer that a spoiled record names: the good one in one case, the spoiled one in the next.
fn naming(turn: usize, good: u8, spoiled: u8) -> u8 {
    if turn % 2 == 0 {
        good
    } else {
        spoiled
    }
}

/// A layer whose state isn't good; another one is named every other time.
fn bad_layers(random: &mut Random, kind: Kind, numbers: [u8; 4], layer: u8) -> Vec<Bad> {
    let state = kind.random(random, numbers);
    let good = Record::around(random, kind, layer, &state);
    let states = kind.bad_states(random, numbers).into_iter().enumerate();
    let spoiled = states.map(|(turn, state)| {
        let mut record = good.naming(naming(turn, (layer + 1) % 3, layer));
        record.put(layer, &state.area);
        Bad::new(format!("layer {layer} with {}", state.why), record)
    });
    spoiled.collect()
}

/// The first, a middle and the last byte of each part of a state.
fn places(kind: Kind) -> Vec<usize> {
    match kind {
        Kind::Coding => vec![0, 1, 2, 3, 4, 500, 1125, 1126, 1127, 1246, 1247, 1486],
        Kind::Receiving => vec![
            0, 1, 2, 3, 4, 5, 500, 1126, 1127, 1247, 1486, 1487, 1488, 3000, 4559,
        ],
    }
}

/// A layer that is unused but for one byte. One that has nothing but a mode is neither good nor unused.
fn not_all_zero(kind: Kind, state: &[u8], layer: u8) -> Vec<Bad> {
    let good = Record::alone(kind, layer, state);
    let mut all = Vec::new();
    for (turn, place) in places(kind).into_iter().enumerate() {
        let spoiled = (layer + 1 + (turn % 2) as u8) % 3;
        for value in [1, state[0], 255] {
            let mut record = good.naming(naming(all.len(), layer, spoiled));
            let mut nothing = vec![0; kind.state_length()];
            nothing[place] = value;
            record.put(spoiled, &nothing);
            let why = format!("layer {spoiled} unused but for {value} at byte {place}");
            all.push(Bad::new(why, record));
        }
    }
    all
}

/// Modes that are not legal, in the record alone and in its layers too, and layers of another mode than the record's.
fn modes(random: &mut Random, kind: Kind, numbers: [u8; 4], layer: u8) -> Vec<Bad> {
    let [mode, v, rate, _] = numbers;
    let state = kind.random(random, numbers);
    let (good, alone) = (
        Record::around(random, kind, layer, &state),
        Record::alone(kind, layer, &state),
    );
    let mut all = vec![Bad::new("zeros", Record::empty(kind, 0).naming(layer))];
    for other in [0, 1, 2, 3, 4, 5, 128, 255] {
        if other == mode {
            continue;
        }
        let mut record = good.clone();
        record.area[0] = other;
        all.push(Bad::new(format!("layers not of mode {other}"), record));
        let mut both = alone.clone();
        (both.area[0], both.state_mut()[0]) = (other, other);
        // a layer in another legal mode is as good there
        if !(1..=3).contains(&other) {
            all.push(Bad::new(format!("mode {other} throughout"), both));
            let nothing = Record::empty(kind, other).naming(layer);
            all.push(Bad::new(format!("mode {other}, nothing used"), nothing));
            continue;
        }
        let of_other = kind.random(random, [other, v, rate, 1]);
        for (spoiled, named) in [(layer, layer), ((layer + 1) % 3, layer), (layer, 0)] {
            let mut record = alone.naming(named);
            record.put(spoiled, &of_other);
            all.push(Bad::new(format!("layer {spoiled} of mode {other}"), record));
        }
    }
    all
}

/// More than thirteen segments, each layer good by itself.
fn segments(random: &mut Random, kind: Kind, [mode, v, rate, _]: [u8; 4]) -> Vec<Bad> {
    let mut all = Vec::new();
    for sum in [
        [13, 1, 0],
        [0, 7, 7],
        [2, 0, 12],
        [1, 12, 1],
        [5, 5, 4],
        [13, 13, 13],
    ] {
        let mut record = Record::empty(kind, mode);
        for (layer, segments) in NAMES.into_iter().zip(sum) {
            if segments != 0 {
                record.put(layer, &kind.random(random, [mode, v, rate, segments]));
            }
        }
        // the unused layer among them is named too
        let named = all.len() % 3;
        let why = format!("segments {sum:?}");
        all.push(Bad::new(why, record.naming(named as u8)));
    }
    all
}

/// Areas of another length.
fn lengths(random: &mut Random, kind: Kind, numbers: [u8; 4], layer: u8) -> Vec<Bad> {
    let state = kind.random(random, numbers);
    let good = Record::around(random, kind, layer, &state);
    let other = match kind {
        Kind::Coding => Kind::Receiving,
        Kind::Receiving => Kind::Coding,
    };
    let whole = kind.length();
    let state_length = kind.state_length();
    let mut all = Vec::new();
    for length in [
        0,
        1,
        4,
        state_length,
        state_length + 1,
        whole - 1,
        whole + 1,
        2 * whole,
        other.length(),
    ] {
        let mut record = good.clone();
        record.area.resize(length, 0);
        all.push(Bad::new(format!("length {length}"), record));
    }
    all
}

/// Every kind of record that isn't good, by a layer of these numbers.
pub fn bad(random: &mut Random, kind: Kind, numbers: [u8; 4]) -> Vec<Bad> {
    let layer = random.below(3) as u8;
    let mut all = bad_layers(random, kind, numbers, layer);
    let state = kind.random(random, numbers);
    all.extend(not_all_zero(kind, &state, layer));
    all.extend(modes(random, kind, numbers, layer));
    all.extend(segments(random, kind, numbers));
    all.extend(lengths(random, kind, numbers, layer));
    all
}

/// One of them.
pub fn any_bad(random: &mut Random, kind: Kind, numbers: [u8; 4]) -> Bad {
    let layer = random.below(3) as u8;
    let mut all = match random.below(5) {
        0 => not_all_zero(kind, &kind.random(random, numbers), layer),
        1 => modes(random, kind, numbers, layer),
        2 => segments(random, kind, numbers),
        3 => lengths(random, kind, numbers, layer),
        _ => bad_layers(random, kind, numbers, layer),
    };
    all.swap_remove(random.below(all.len() as u64) as usize)
}
