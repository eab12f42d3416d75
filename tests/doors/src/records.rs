//! Records to call the doors with: a layer's state among others.

mod bad;

use std::ops::Range;

use second::random::Random;
use second::receiving::STATE as RECEIVING_STATE;
use second::state::STATE;

use crate::receiving_states;
use crate::states::{self, BadState};

pub use bad::{any_bad, bad};

/// The names of the layers.
pub const NAMES: [u8; 3] = [0, 1, 2];

/// The most segments of all layers together.
pub const SEGMENTS: u8 = 13;

/// v, rate and segments of A, B and C, as a start takes them.
pub type Layers = [[u8; 3]; 3];

/// The two kinds of records, by the states that they hold.
#[derive(Clone, Copy, Debug, PartialEq)]
pub enum Kind {
    Coding,
    Receiving,
}

impl Kind {
    /// The bytes of a layer.
    pub fn state_length(self) -> usize {
        match self {
            Kind::Coding => STATE,
            Kind::Receiving => RECEIVING_STATE,
        }
    }

    /// The bytes of a record.
    pub fn length(self) -> usize {
        1 + NAMES.len() * self.state_length()
    }

    /// The state of a layer at its start.
    pub fn fresh(self, numbers: [u8; 4]) -> Vec<u8> {
        match self {
            Kind::Coding => states::fresh(numbers),
            Kind::Receiving => receiving_states::fresh(numbers),
        }
    }

    /// A good state with every part random.
    pub fn random(self, random: &mut Random, numbers: [u8; 4]) -> Vec<u8> {
        match self {
            Kind::Coding => states::random(random, numbers),
            Kind::Receiving => receiving_states::random(random, numbers),
        }
    }

    /// Every kind of state that isn't good.
    fn bad_states(self, random: &mut Random, numbers: [u8; 4]) -> Vec<BadState> {
        match self {
            Kind::Coding => states::bad(random, numbers),
            Kind::Receiving => receiving_states::bad(random, numbers),
        }
    }
}

/// A record's area, and the layer that a call names.
#[derive(Clone)]
pub struct Record {
    pub kind: Kind,
    pub area: Vec<u8>,
    pub layer: u8,
}

impl Record {
    /// A record of this mode in which no layer is used.
    pub fn empty(kind: Kind, mode: u8) -> Self {
        let mut area = vec![0; kind.length()];
        area[0] = mode;
        Record {
            kind,
            area,
            layer: 0,
        }
    }

    /// The state in one layer, which is named, and the others unused.
    pub fn alone(kind: Kind, layer: u8, state: &[u8]) -> Self {
        let mut record = Record::empty(kind, state[0]);
        record.layer = layer;
        record.put(layer, state);
        record
    }

    /// The state in one layer, which is named, beside others that may be used as far as there are segments left.
    pub fn around(random: &mut Random, kind: Kind, layer: u8, state: &[u8]) -> Self {
        let mut record = Record::alone(kind, layer, state);
        let mut room = SEGMENTS - state[3];
        for other in [(layer + 1) % 3, (layer + 2) % 3] {
            let [v, rate, segments] = neighbour(random, room);
            room -= segments;
            let numbers = [state[0], v, rate, segments];
            let beside = match random.below(3) {
                _ if segments == 0 => continue,
                0 => kind.fresh(numbers),
                _ => kind.random(random, numbers),
            };
            record.put(other, &beside);
        }
        record
    }

    /// Where a layer stands.
    fn place(&self, layer: u8) -> Range<usize> {
        let length = self.kind.state_length();
        let from = 1 + length * usize::from(layer);
        from..from + length
    }

    /// The bytes of a layer.
    pub fn at(&self, layer: u8) -> &[u8] {
        &self.area[self.place(layer)]
    }

    /// The bytes of the layer that is named.
    pub fn state_mut(&mut self) -> &mut [u8] {
        let place = self.place(self.layer);
        &mut self.area[place]
    }

    /// Puts a state into a layer.
    pub fn put(&mut self, layer: u8, state: &[u8]) {
        let place = self.place(layer);
        self.area[place].copy_from_slice(state);
    }

    /// The four numbers of the layer that is named.
    pub fn numbers(&self) -> [u8; 4] {
        let state = self.at(self.layer);
        [state[0], state[1], state[2], state[3]]
    }

    /// Names another layer.
    pub fn naming(&self, layer: u8) -> Self {
        Record {
            layer,
            ..self.clone()
        }
    }

    /// The layers that are used.
    pub fn used(&self) -> Vec<u8> {
        let used = |layer: &u8| self.at(*layer)[0] != 0;
        NAMES.into_iter().filter(used).collect()
    }

    /// Names a layer that is unused, or one that there is not.
    pub fn name_unused(&mut self) {
        let whole = self.area.len() == self.kind.length();
        let unused = |layer: &u8| whole && self.at(*layer).iter().all(|&byte| byte == 0);
        self.layer = NAMES.into_iter().find(unused).unwrap_or(3);
    }
}

/// v, rate and segments of a layer that has room beside others: every other time, or where there is none, unused.
pub fn neighbour(random: &mut Random, room: u8) -> [u8; 3] {
    if room == 0 || random.below(2) == 0 {
        return [0; 3];
    }
    // often the smallest, of which frames are coded in no time
    let segments = match random.below(2) {
        0 => 1,
        _ => 1 + random.below(room.into()) as u8,
    };
    let (v, rate) = (2 + 2 * random.below(3), 1 + random.below(5));
    [v as u8, rate as u8, segments]
}
