//! Three layers in one record: their states one behind the other, and the entries of which each names its layer. Coding records
//! and receiving records are alike but for the states that they hold.

use crate::layer::Numbers;
use crate::{entries, receiving, state};

/// The layers of a record: A, B and C.
pub const LAYERS: usize = 3;

/// The most segments that the layers of a record have in all.
const SEGMENTS: u32 = 13;

/// The lengths of records that are written out in bytes.
pub const RECORD: usize = 1 + LAYERS * state::STATE;
pub const RECEIVING_RECORD: usize = 1 + LAYERS * receiving::STATE;

/// What the states of a coding record and of a receiving record have in common.
pub trait LayerState: Clone {
    const LENGTH: usize;
    fn start(numbers: Numbers) -> (u8, Self);
    fn good(&self) -> bool;
    fn numbers(&self) -> Numbers;
    fn from_bytes(area: &[u8]) -> Option<Self>;
    fn bytes(&self) -> Vec<u8>;
}

impl LayerState for state::State {
    const LENGTH: usize = state::STATE;
    fn start(numbers: Numbers) -> (u8, Self) {
        Self::start(numbers)
    }
    fn good(&self) -> bool {
        self.good()
    }
    fn numbers(&self) -> Numbers {
        self.numbers
    }
    fn from_bytes(area: &[u8]) -> Option<Self> {
        Self::from_bytes(area)
    }
    fn bytes(&self) -> Vec<u8> {
        self.bytes()
    }
}

impl LayerState for receiving::State {
    const LENGTH: usize = receiving::STATE;
    fn start(numbers: Numbers) -> (u8, Self) {
        Self::start(numbers)
    }
    fn good(&self) -> bool {
        self.good()
    }
    fn numbers(&self) -> Numbers {
        self.numbers
    }
    fn from_bytes(area: &[u8]) -> Option<Self> {
        Self::from_bytes(area)
    }
    fn bytes(&self) -> Vec<u8> {
        self.bytes()
    }
}

/// A record, good or not.
#[derive(Clone, Debug, PartialEq)]
pub struct Record<S> {
    pub mode: u8,
    /// A, B, C.
    pub layers: [S; LAYERS],
}

/// Whether a layer is unused: all of it is zero.
fn unused<S: LayerState>(layer: &S) -> bool {
    layer.bytes().iter().all(|&byte| byte == 0)
}

impl<S: LayerState> Record<S> {
    /// Zeros throughout.
    fn zeros() -> Self {
        let zeros = vec![0; 1 + LAYERS * S::LENGTH];
        Record::from_bytes(&zeros).expect("a record's length")
    }

    /// Starts the layers, v, rate and segments of each, of which three zeros are an unused one: the number of the refusal, and the
    /// record before the first frame. A refused start gives zeros throughout.
    pub fn start(mode: u8, layers: [[u8; 3]; LAYERS]) -> (u8, Self) {
        let mut record: Record<S> = Record::zeros();
        if !(1..=3).contains(&mode) {
            return (1, record);
        }
        let mut segments = 0;
        for (layer, [v, rate, n]) in record.layers.iter_mut().zip(layers) {
            if [v, rate, n] == [0; 3] {
                continue;
            }
            let (refusal, started) = S::start(Numbers::from([mode, v, rate, n]));
            if refusal != 0 {
                return (refusal, Record::zeros());
            }
            *layer = started;
            segments += u32::from(n);
        }
        if segments > SEGMENTS {
            return (12, Record::zeros());
        }
        record.mode = mode;
        (0, record)
    }

    /// A legal mode, each layer good in that mode or unused and all zero, and at most 13 segments in all.
    pub fn good(&self) -> bool {
        let in_mode = |layer: &S| layer.good() && layer.numbers().mode == self.mode;
        let segments = |layer: &S| u32::from(layer.numbers().segments);
        (1..=3).contains(&self.mode)
            && self
                .layers
                .iter()
                .all(|layer| unused(layer) || in_mode(layer))
            && self.layers.iter().map(segments).sum::<u32>() <= SEGMENTS
    }

    /// The record that stands in so many bytes; nothing if the area has another length.
    pub fn from_bytes(area: &[u8]) -> Option<Self> {
        let (&mode, states) = area.split_first()?;
        if states.len() != LAYERS * S::LENGTH {
            return None;
        }
        let layer = |name: usize| S::from_bytes(&states[S::LENGTH * name..][..S::LENGTH]);
        Some(Record {
            mode,
            layers: [layer(0)?, layer(1)?, layer(2)?],
        })
    }

    /// The mode, then A, B, C.
    pub fn bytes(&self) -> Vec<u8> {
        let mut bytes = vec![self.mode];
        bytes.extend(self.layers.iter().flat_map(LayerState::bytes));
        bytes
    }

    /// The named layer, or why there is none: 7, the record isn't good; 13, the layer is unused or no layer has that name.
    fn named(&self, name: u8) -> Result<&S, u8> {
        if !self.good() {
            return Err(7);
        }
        let layer = self.layers.get(usize::from(name)).ok_or(13)?;
        if unused(layer) {
            return Err(13);
        }
        Ok(layer)
    }

    /// The record with another state in the place of this layer.
    fn with(&self, name: u8, state: S) -> Self {
        let mut record = self.clone();
        record.layers[usize::from(name)] = state;
        record
    }

    /// The layer alone does its work: what it answers, and the record with the state that it leaves.
    fn moved(&self, name: u8, work: impl FnOnce(&S) -> (u8, S)) -> (u8, Self) {
        match self.named(name) {
            Err(number) => (number, self.clone()),
            Ok(layer) => {
                let (number, after) = work(layer);
                (number, self.with(name, after))
            }
        }
    }
}

/// A coding record, and a receiving record.
pub type Coding = Record<state::State>;
pub type Receiving = Record<receiving::State>;

/// Disperses and byte-interleaves a word of a layer: 7, 13, 5, 9 or 0, and the record after it.
pub fn disperse_interleave(
    record: &Coding,
    name: u8,
    place: usize,
    word: &[u8],
    out: &mut [u8],
) -> (u8, Coding) {
    record.moved(name, |layer| {
        entries::disperse_interleave(layer, place, word, out)
    })
}

/// Codes a frame of a layer: 7, 13, 5, 6, 8 or 0, and the record after it.
pub fn code(record: &Coding, name: u8, packets: &[u8], carriers: &mut [u8]) -> (u8, Coding) {
    record.moved(name, |layer| entries::code(layer, packets, carriers))
}

/// Replaces a packet of a layer: 7, 13, 6, 5, 9, 10, 8 or 0, and the record.
pub fn replace(
    record: &Coding,
    name: u8,
    carriers: &mut [u8],
    number: usize,
    old: &[u8],
    new: &[u8],
) -> (u8, Coding) {
    record.moved(name, |layer| {
        entries::replace(layer, carriers, number, old, new)
    })
}

/// Takes a frame of a layer: 7, 13, 6, 5, 10 or 0, how many packets were given, and the record after it.
pub fn back(
    record: &Receiving,
    name: u8,
    carriers: &[u8],
    slots: &mut [u8],
) -> (u8, usize, Receiving) {
    let mut given = 0;
    let (number, after) = record.moved(name, |layer| {
        let (number, count, after) = receiving::back(layer, carriers, slots);
        given = count;
        (number, after)
    });
    (number, given, after)
}
