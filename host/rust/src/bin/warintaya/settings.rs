//! The settings of a station's layers, by names.

use warintaya::{Layer, LayerName, Modulation, Rate};
use warintaya::{Refusal, StartRefused, Station, UNUSED};

use crate::failure::{Failure, Outcome};
use crate::options::{is_whole_number, Kind, Options};

/// The options that name settings: the mode, those of layer A alone, and those of each layer.
pub const NAMES: [(&str, Kind); 5] = [
    ("--mode", Kind::Value),
    ("--modulation", Kind::Value),
    ("--rate", Kind::Value),
    ("--segments", Kind::Value),
    ("--layer", Kind::Values),
];

/// A setting: the number behind what is written, what can be written, and the refusal of anything else.
struct Setting {
    number: fn(&str) -> Option<u8>,
    legal: &'static str,
    refusal: Refusal,
}

const MODE: Setting = Setting {
    number: |written| up_to(3, written),
    legal: "1, 2 or 3",
    refusal: Refusal::Mode,
};
const MODULATION: Setting = Setting {
    number: |written| written.parse().ok().map(Modulation::number),
    legal: "qpsk, 16qam or 64qam",
    refusal: Refusal::Bits,
};
const RATE: Setting = Setting {
    number: |written| written.parse().ok().map(Rate::number),
    legal: "1/2, 2/3, 3/4, 5/6 or 7/8",
    refusal: Refusal::Rate,
};
const SEGMENTS: Setting = Setting {
    number: |written| up_to(13, written),
    legal: "1 to 13",
    refusal: Refusal::Segments,
};

/// The settings of layer A alone, behind their options, and what they are called in a layer.
const OF_LAYER: [(&str, &str, Setting); 3] = [
    ("--modulation", "the modulation", MODULATION),
    ("--rate", "the rate", RATE),
    ("--segments", "the number of segments", SEGMENTS),
];

/// A number from one up to another.
fn up_to(last: u8, written: &str) -> Option<u8> {
    let number = is_whole_number(written).then(|| written.parse().ok());
    number
        .flatten()
        .filter(|number| (1..=last).contains(number))
}

impl Setting {
    /// The number behind what was written for a name.
    fn read(&self, name: &str, written: &str) -> Outcome<u8> {
        let refused = || {
            let legal = self.legal;
            Failure::at(format!("{name} is {legal}, not {written}"), self.refusal)
        };
        (self.number)(written).ok_or_else(refused)
    }

    /// The number behind an option, if that is given.
    fn given(&self, options: &Options, name: &str) -> Outcome<Option<u8>> {
        let written = options.value(name);
        let number = written.map(|written| self.read(name, &written.to_string_lossy()));
        number.transpose()
    }
}

/// The settings that were given, each of them legal by itself.
pub struct Wanted {
    mode: Option<u8>,
    /// v, rate and segments of layer A alone, those of them that were given.
    alone: [Option<u8>; 3],
    /// v, rate and segments of the layers that were given by their names.
    layers: [Option<[u8; 3]>; 3],
}

/// What is written behind `--layer`: the layer, and its modulation, rate and segments.
fn parted(written: &str) -> Outcome<(LayerName, [&str; 3])> {
    let form = || Failure::Usage(format!("--layer is like A=qpsk,2/3,1, not {written}"));
    let (letter, settings) = written.split_once('=').ok_or_else(form)?;
    let name = layer_named(letter).ok_or_else(form)?;
    let settings: Vec<&str> = settings.split(',').collect();
    let settings = settings.try_into().map_err(|_| form())?;
    Ok((name, settings))
}

/// The numbers of a layer's settings.
fn layer_of(name: LayerName, written: [&str; 3]) -> Outcome<[u8; 3]> {
    let mut numbers = UNUSED;
    for (number, ((_, what, setting), written)) in
        numbers.iter_mut().zip(OF_LAYER.iter().zip(written))
    {
        *number = setting.read(&format!("--layer {name}: {what}"), written)?;
    }
    Ok(numbers)
}

/// The layer whose letter this is.
pub fn layer_named(letter: &str) -> Option<LayerName> {
    letter.parse().ok()
}

/// The layers that were given by their names. Their form is looked at before what they say.
fn layers_of(options: &Options) -> Outcome<[Option<[u8; 3]>; 3]> {
    let written: Vec<_> = options
        .values("--layer")
        .map(|value| value.to_string_lossy())
        .collect();
    let mut parts = [None; 3];
    for written in &written {
        let (name, settings) = parted(written)?;
        if parts[name.place()].replace(settings).is_some() {
            return Err(Failure::Usage(format!("--layer {name} is given twice")));
        }
    }
    let mut layers = [None; 3];
    for (name, settings) in LayerName::ALL.into_iter().zip(parts) {
        let numbers = settings.map(|settings| layer_of(name, settings));
        layers[name.place()] = numbers.transpose()?;
    }
    Ok(layers)
}

impl Wanted {
    /// The mode and the settings of layer A alone, or those of each layer.
    pub fn read(options: &Options) -> Outcome<Wanted> {
        let both = OF_LAYER.iter().find(|(name, ..)| options.has(name));
        match both {
            Some((name, ..)) if options.has("--layer") => Err(Failure::Usage(format!(
                "--layer and {name} exclude each other"
            ))),
            _ => {
                let wanted = Wanted::read_alone(options)?;
                let layers = layers_of(options)?;
                Ok(Wanted { layers, ..wanted })
            }
        }
    }

    /// The mode and the settings of layer A alone.
    pub fn read_alone(options: &Options) -> Outcome<Wanted> {
        let mode = MODE.given(options, "--mode")?;
        let mut alone = [None; 3];
        for (number, (name, _, setting)) in alone.iter_mut().zip(OF_LAYER) {
            *number = setting.given(options, name)?;
        }
        Ok(Wanted {
            mode,
            alone,
            layers: [None; 3],
        })
    }

    /// Whether layers were given by their names.
    pub fn by_names(&self) -> bool {
        self.layers.iter().any(Option::is_some)
    }

    /// The mode, and v, rate and segments of each layer, if they are all given.
    fn numbers(&self) -> Outcome<(u8, [[u8; 3]; 3])> {
        let missing = |name: &str| Failure::Usage(format!("{name} is missing"));
        let mode = self.mode.ok_or_else(|| missing("--mode"))?;
        if self.by_names() {
            return Ok((mode, self.layers.map(|layer| layer.unwrap_or(UNUSED))));
        }
        for ((name, ..), number) in OF_LAYER.iter().zip(self.alone) {
            number.ok_or_else(|| missing(name))?;
        }
        let alone = self.alone.map(Option::unwrap_or_default);
        Ok((mode, [alone, UNUSED, UNUSED]))
    }

    /// The station, if all is given.
    pub fn station(&self) -> Outcome<Station> {
        let (mode, layers) = self.numbers()?;
        Station::new(mode, layers).map_err(|why| refused(why, layers))
    }

    /// Each layer that was given by its name, also where they have more segments in all than there are.
    pub fn layers(&self) -> Outcome<Vec<(LayerName, Layer)>> {
        let (mode, layers) = self.numbers()?;
        let mut legal = Vec::new();
        for name in LayerName::ALL {
            let mut alone = [UNUSED; 3];
            let place = name.place();
            alone[place] = layers[place];
            let station = Station::new(mode, alone).map_err(|why| refused(why, layers))?;
            legal.extend(station.used());
        }
        Ok(legal)
    }

    /// Whether a station has all that was given.
    pub fn allows(&self, station: Station) -> bool {
        let layers = station.numbers();
        let mut pairs = self.alone.into_iter().zip(layers[0]);
        let alone = layers[1..] == [UNUSED; 2]
            && pairs.all(|(wanted, number)| wanted.map_or(true, |wanted| wanted == number));
        let mut named = self.layers.into_iter().zip(layers);
        self.mode.map_or(true, |mode| mode == station.mode())
            && (alone || self.alone == [None; 3])
            && named.all(|(wanted, layer)| wanted.map_or(true, |wanted| wanted == layer))
    }
}

/// Why layers can't be started: too many segments are counted.
fn refused(why: StartRefused, layers: [[u8; 3]; 3]) -> Failure {
    match why.refusal {
        Refusal::TooManySegments => {
            let sum: u32 = layers.iter().map(|layer| u32::from(layer[2])).sum();
            let what = format!("the layers have {sum} segments in all, and there are 13");
            Failure::at(what, why.refusal)
        }
        _ => Failure::Refused(why.to_string()),
    }
}
