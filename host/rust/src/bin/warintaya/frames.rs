//! `warintaya frames`: the sizes of frames, their times and the bit rates, as a table.

use warintaya::{Layer, PACKET};

use crate::failure::Outcome;
use crate::guard::{self, Guard};
use crate::options::{Kind, Options};
use crate::print;
use crate::settings::{self, Wanted};

pub const OPTIONS: &[(&str, Kind)] = &[
    settings::NAMES[0],
    settings::NAMES[1],
    settings::NAMES[2],
    settings::NAMES[3],
    settings::NAMES[4],
    guard::OPTION,
];

const HEAD: &str = "mode  modulation  rate  segments  packets  packet-bytes  carriers";

/// The names of the columns.
fn head(guards: &[Guard]) -> String {
    let rates = guards.iter().map(|guard| format!("bit/s-{guard}"));
    let rates = rates.map(|name| format!("  {name:>10}"));
    format!("{HEAD}{}\n", rates.collect::<String>())
}

/// A row of the table.
fn row(layer: Layer, guards: &[Guard]) -> String {
    let (mode, segments) = (layer.mode(), layer.segments());
    let modulation = layer.modulation_name().to_lowercase();
    let (rate, packets, carriers) = (layer.rate_name(), layer.packets(), layer.carriers());
    let bytes = packets * PACKET;
    let rates = guards.iter().map(|guard| guard.rate(layer));
    let rates: String = rates.map(|bits| format!("  {bits:>10}")).collect();
    format!(
        "{mode:>4}  {modulation:<10}  {rate:<4}  {segments:>8}  {packets:>7}  {bytes:>12}  {carriers:>8}{rates}\n"
    )
}

/// A line for each mode of some layers: how long a frame is on the air.
fn times(layers: &[Layer], guards: &[Guard]) -> String {
    let mut modes: Vec<u8> = layers.iter().map(|layer| layer.mode()).collect();
    modes.dedup();
    let line = |mode: &u8| {
        let times = guards
            .iter()
            .map(|guard| format!("{} ms at {guard}", guard.milliseconds(*mode)));
        let times: Vec<String> = times.collect();
        format!("a frame of mode {mode} takes {}\n", times.join(", "))
    };
    let lines: String = modes.iter().map(line).collect();
    format!("\n{lines}")
}

/// A row for each of the layers that are given, and the sum of their segments, also where there are too many of them.
fn of_station(wanted: &Wanted, guards: &[Guard]) -> Outcome {
    let layers = wanted.layers()?;
    let mut table = format!("layer  {}", head(guards));
    for (name, layer) in &layers {
        table += &format!("{name:<5}  {}", row(*layer, guards));
    }
    let layers: Vec<Layer> = layers.into_iter().map(|(_, layer)| layer).collect();
    let sum: u8 = layers.iter().map(|layer| layer.segments()).sum();
    table += &format!("sum{sum:>36}\n{}", times(&layers, guards));
    print(&table)?;
    wanted.station().map(|_| ())
}

pub fn run(options: &Options) -> Outcome {
    let wanted = Wanted::read(options)?;
    let guards = match Guard::read(options)? {
        Some(guard) => vec![guard],
        None => Guard::ALL.to_vec(),
    };
    if wanted.by_names() {
        return of_station(&wanted, &guards);
    }
    let layers = Layer::all().filter(|layer| wanted.allows((*layer).into()));
    let layers: Vec<Layer> = layers.collect();
    let rows: String = layers.iter().map(|layer| row(*layer, &guards)).collect();
    print(&(head(&guards) + &rows + &times(&layers, &guards)))
}
