//! Stations of several layers: frames of each, in turn and out of turn, and packets that are replaced in one layer between the
//! frames of others. Each layer does what it does alone.

use second::entries;
use second::frame::PACKET;
use second::layer::Numbers;
use second::state::State;

use crate::cases::code::{packets, Contents};
use crate::cases::link::{Link, Way};
use crate::cases::replace::other;
use crate::check::{Check, Checked};
use crate::expected;
use crate::records::{Kind, Layers, Record, NAMES};

/// A layer by itself: its state, and the frame that was coded last, if there is one.
struct Alone {
    state: State,
    packets: Vec<u8>,
    carriers: Vec<u8>,
}

/// A record, and each of its layers by itself, but for those that are unused.
struct Station {
    record: Record,
    layers: [Option<Alone>; 3],
}

/// The four numbers of a layer that is used.
fn numbers(mode: u8, layers: Layers, name: u8) -> Option<[u8; 4]> {
    let [v, rate, segments] = layers[usize::from(name)];
    (segments != 0).then_some([mode, v, rate, segments])
}

/// A record with these layers at their start, as the door has to leave it.
fn started(check: &mut Check, kind: Kind, mode: u8, layers: Layers) -> Checked<Record> {
    check.case(format!("mode {mode}, layers {layers:?}"));
    let area = check.random.bytes(kind.length());
    let answer = check.start(kind, mode, layers, &area)?;
    check.meant(answer, 0)?;
    let mut record = Record::empty(kind, mode);
    for name in NAMES {
        if let Some(numbers) = numbers(mode, layers, name) {
            record.put(name, &kind.fresh(numbers));
        }
    }
    let mut as_started = area;
    expected::start(kind, mode, layers, &mut as_started);
    check.same("the record started", &as_started, &record.area)?;
    Ok(record)
}

impl Station {
    fn new(check: &mut Check, mode: u8, layers: Layers) -> Checked<Self> {
        let record = started(check, Kind::Coding, mode, layers)?;
        let layers = NAMES.map(|name| {
            numbers(mode, layers, name).map(|numbers| Alone {
                state: State::start(Numbers::from(numbers)).1,
                packets: Vec::new(),
                carriers: Vec::new(),
            })
        });
        Ok(Station { record, layers })
    }

    /// Every layer of the record is what it is by itself.
    fn compare(&self, check: &Check) -> Checked {
        for (name, layer) in NAMES.into_iter().zip(&self.layers) {
            let alone = match layer {
                Some(alone) => alone.state.bytes(),
                None => vec![0; Kind::Coding.state_length()],
            };
            check.same("the layer alone", self.record.at(name), &alone)?;
        }
        Ok(())
    }

    /// The next frame of a layer. One that is unused is refused, and nothing alters.
    fn code(&mut self, check: &mut Check, name: u8) -> Checked {
        self.record.layer = name;
        let alone = match &mut self.layers[usize::from(name)] {
            Some(alone) => alone,
            None => {
                let moved = check.code(&self.record, &[], 0)?;
                return check.meant(moved.answer, 13);
            }
        };
        let (count, carriers) = expected::sizes(self.record.numbers());
        alone.packets = packets(&mut check.random, count, Contents::Random);
        alone.carriers = vec![0; carriers];
        let moved = check.code(&self.record, &alone.packets, carriers)?;
        check.meant(moved.answer, 0)?;
        (_, alone.state) = entries::code(&alone.state, &alone.packets, &mut alone.carriers);
        check.same("the carriers alone", &moved.written, &alone.carriers)?;
        self.record = moved.record;
        self.compare(check)
    }

    /// Replaces a packet of the frame that was coded last in a layer, if there is one: every other time one that reaches into the
    /// next frame.
    fn replace(&mut self, check: &mut Check, name: u8) -> Checked {
        self.record.layer = name;
        let alone = match &mut self.layers[usize::from(name)] {
            Some(alone) => alone,
            None => return Ok(()),
        };
        let count = alone.packets.len() / PACKET;
        if count == 0 {
            return Ok(());
        }
        let number = match check.random.below(2) {
            0 => count - 1 - check.random.below(12) as usize,
            _ => check.random.below(count as u64) as usize,
        };
        let old = alone.packets[PACKET * number..][..PACKET].to_vec();
        let new = other(check, &old);
        let (answer, record, carriers) =
            check.replace(&self.record, &alone.carriers, number, &old, &new)?;
        check.meant(answer, 0)?;
        let alone_carriers = &mut alone.carriers;
        (_, alone.state) = entries::replace(&alone.state, alone_carriers, number, &old, &new);
        alone.packets[PACKET * number..][..PACKET].copy_from_slice(&new);
        check.same("the carriers alone", &carriers, &alone.carriers)?;
        self.record = record;
        self.compare(check)
    }
}

/// The layers in turn, and out of turn.
const IN_TURN: [u8; 9] = [0, 1, 2, 0, 1, 2, 0, 1, 2];
const OUT_OF_TURN: [u8; 10] = [2, 2, 0, 1, 1, 1, 0, 2, 0, 1];

/// Frames of the layers in this order. After each a packet is replaced in one of the other layers, whose frame was coded before.
fn coded(check: &mut Check, mode: u8, layers: Layers, order: &[u8]) -> Checked {
    let mut station = Station::new(check, mode, layers)?;
    for (turn, &name) in order.iter().enumerate() {
        check.case(format!(
            "mode {mode}, layers {layers:?}, frames in the order {:?}",
            &order[..=turn]
        ));
        station.code(check, name)?;
        station.replace(check, (name + 1 + (turn % 2) as u8) % 3)?;
    }
    Ok(())
}

/// Frames of the layers go back in this order, the first of each undisturbed, so that what was sent has to come out.
fn received(check: &mut Check, mode: u8, layers: Layers, order: &[u8]) -> Checked {
    let mut record = started(check, Kind::Receiving, mode, layers)?;
    let mut links = NAMES.map(|name| numbers(mode, layers, name).map(Link::new));
    for (turn, &name) in order.iter().enumerate() {
        record.layer = name;
        let what = format!(
            "layers {layers:?}, frames in the order {:?}",
            &order[..=turn]
        );
        let way = match turn {
            0..=5 => Way::Undisturbed,
            _ => Way::disturbing(&mut check.random),
        };
        if let Some(link) = &mut links[usize::from(name)] {
            link.frame(check, &mut record, &what, way)?;
            continue;
        }
        check.case(what);
        let back = check.back(&record, &[], 0)?;
        check.meant(back.answer, 13)?;
    }
    Ok(())
}

/// Stations, each with a mode: three layers alike, all unlike, thirteen segments in all, and one layer unused, each of the three.
const STATIONS: [(u8, Layers); 7] = [
    (1, [[2, 1, 1]; 3]),
    (1, [[2, 1, 1], [6, 5, 2], [4, 3, 1]]),
    (1, [[4, 2, 2], [2, 4, 1], [2, 3, 10]]),
    (2, [[2, 5, 1], [4, 1, 1], [2, 2, 1]]),
    (1, [[0, 0, 0], [4, 4, 1], [2, 2, 1]]),
    (2, [[2, 2, 1], [0, 0, 0], [4, 3, 1]]),
    (3, [[2, 1, 1], [2, 3, 1], [0, 0, 0]]),
];

pub fn run(check: &mut Check) -> Checked {
    for (mode, layers) in STATIONS {
        for order in [&IN_TURN[..], &OUT_OF_TURN] {
            coded(check, mode, layers, order)?;
            received(check, mode, layers, order)?;
        }
    }
    Ok(())
}
