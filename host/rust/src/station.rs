//! The layers of a station, and what is refused of them.

use std::error::Error;
use std::fmt;

use crate::{doors, Layer, LayerName, Refusal, CODING_RECORD};

/// The layers of a station: one mode, for each of A, B and C its settings or that it is not used, and at most 13 segments in all.
///
/// ```
/// use warintaya::{LayerName, Refusal, Station, UNUSED};
///
/// // mode 1; A: QPSK, rate 2/3, one segment; B: 64QAM, rate 3/4, twelve segments; no C
/// let station = Station::new(1, [[2, 2, 1], [6, 3, 12], UNUSED])?;
/// assert_eq!(station.segments(), 13);
/// assert_eq!(station.layer(LayerName::B).map(|layer| layer.packets()), Some(648));
/// assert_eq!(station.layer(LayerName::C), None);
///
/// let refused = Station::new(1, [[2, 2, 1], [6, 6, 13], UNUSED]).unwrap_err();
/// assert_eq!((refused.refusal, refused.layer), (Refusal::Rate, Some(LayerName::B)));
/// let refused = Station::new(1, [[2, 2, 1], [6, 3, 13], UNUSED]).unwrap_err();
/// assert_eq!((refused.refusal, refused.layer), (Refusal::TooManySegments, None));
/// # Ok::<(), Refusal>(())
/// ```
#[derive(Clone, Copy, Debug, PartialEq, Eq, Hash)]
pub struct Station {
    mode: u8,
    layers: [Option<Layer>; 3],
}

/// Why a station can't be started.
#[derive(Clone, Copy, Debug, PartialEq, Eq, Hash)]
pub struct StartRefused {
    /// What is wrong.
    pub refusal: Refusal,
    /// The layer that it is about: the first that is wrong, where it is v, rate or segments of one.
    pub layer: Option<LayerName>,
}

/// A layer that isn't used, where v, rate and segments of a layer are asked for.
pub const UNUSED: [u8; 3] = [0; 3];

/// Starts a record and forgets it.
fn tried(mode: u8, layers: &doors::Layers) -> Result<(), Refusal> {
    doors::start(mode, layers, &mut [0; CODING_RECORD])
}

impl Station {
    /// A station of this mode (1 to 3) with the layers A, B and C: v, rate and segments of each as for [`Layer::new`], or
    /// [`UNUSED`].
    ///
    /// # Errors
    ///
    /// [`Refusal::Mode`]; then of A, B and C in turn [`Refusal::Bits`], [`Refusal::Rate`], [`Refusal::Segments`]; then
    /// [`Refusal::TooManySegments`] if there are more than 13 in all.
    pub fn new(mode: u8, layers: [[u8; 3]; 3]) -> Result<Station, StartRefused> {
        if let Err(refusal) = tried(mode, &layers) {
            let layer = refused_alone(mode, &layers, refusal);
            return Err(StartRefused { refusal, layer });
        }
        let layers = layers.map(|[v, rate, segments]| match [v, rate, segments] {
            UNUSED => None,
            // the start was not refused, so that the layer is legal
            _ => Layer::new(mode, v, rate, segments).ok(),
        });
        Ok(Station { mode, layers })
    }

    /// A station with layer A alone.
    pub const fn alone(layer: Layer) -> Station {
        Station {
            mode: layer.mode(),
            layers: [Some(layer), None, None],
        }
    }

    /// The layers of a good record, whose states have so many bytes each.
    pub(crate) fn of_record(record: &[u8], state: usize) -> Result<Station, Refusal> {
        let (mode, states) = record.split_first().ok_or(Refusal::Record)?;
        let mut layers = [UNUSED; 3];
        for (layer, state) in layers.iter_mut().zip(states.chunks(state)) {
            // behind the mode, which is the record's
            layer.copy_from_slice(state.get(1..4).ok_or(Refusal::Record)?);
        }
        Ok(Station::new(*mode, layers)?)
    }

    /// The mode, 1 to 3.
    pub const fn mode(self) -> u8 {
        self.mode
    }

    /// The settings of a layer, if it is used.
    pub fn layer(self, name: LayerName) -> Option<Layer> {
        self.layers[name.place()]
    }

    /// The layers that are used, in their order.
    pub fn used(self) -> impl Iterator<Item = (LayerName, Layer)> {
        let named = LayerName::ALL.into_iter().zip(self.layers);
        named.filter_map(|(name, layer)| layer.map(|layer| (name, layer)))
    }

    /// The segments of all layers, at most 13.
    pub fn segments(self) -> u8 {
        self.used().map(|(_, layer)| layer.segments()).sum()
    }

    /// v, rate and segments of A, B and C, as a start takes them.
    pub fn numbers(self) -> [[u8; 3]; 3] {
        self.layers.map(|layer| match layer {
            Some(layer) => [layer.v(), layer.rate(), layer.segments()],
            None => UNUSED,
        })
    }
}

/// The first layer that is refused so by itself. A mode is refused whatever the layers are, and so it is no layer's.
fn refused_alone(mode: u8, layers: &doors::Layers, refusal: Refusal) -> Option<LayerName> {
    let mut names = LayerName::ALL.into_iter();
    names.find(|name| {
        let mut alone = [UNUSED; 3];
        alone[name.place()] = layers[name.place()];
        refusal != Refusal::Mode && tried(mode, &alone) == Err(refusal)
    })
}

/// The record of layer A alone, from that layer's state, which has so many bytes.
pub(crate) fn record_of(state: &[u8], length: usize) -> Result<Vec<u8>, Refusal> {
    match state.first() {
        Some(mode) if state.len() == length => Ok([&[*mode], state, &vec![0; 2 * length]].concat()),
        _ => Err(Refusal::Record),
    }
}

impl From<Layer> for Station {
    /// Layer A alone.
    fn from(layer: Layer) -> Station {
        Station::alone(layer)
    }
}

impl fmt::Display for Station {
    /// Layer A alone is shown as that layer.
    fn fmt(&self, formatter: &mut fmt::Formatter<'_>) -> fmt::Result {
        if let [Some(layer), None, None] = self.layers {
            return layer.fmt(formatter);
        }
        write!(formatter, "mode {}", self.mode)?;
        if self.used().next().is_none() {
            return write!(formatter, ", no layer used");
        }
        let mut used = self.used();
        used.try_for_each(|(name, layer)| write!(formatter, "; {name}: {}", layer.in_its_mode()))
    }
}

impl fmt::Display for StartRefused {
    /// The layer, if it is about one, and the refusal's words and number.
    fn fmt(&self, formatter: &mut fmt::Formatter<'_>) -> fmt::Result {
        if let Some(name) = self.layer {
            write!(formatter, "layer {name}: ")?;
        }
        self.refusal.fmt(formatter)
    }
}

impl Error for StartRefused {}

impl From<StartRefused> for Refusal {
    /// Without the layer.
    fn from(refused: StartRefused) -> Refusal {
        refused.refusal
    }
}
