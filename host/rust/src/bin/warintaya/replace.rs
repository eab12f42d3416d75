//! `warintaya replace`: one packet of a coded frame, in its carriers and in the state behind it.

mod task;

use warintaya::{Coder, Layer, LayerName, Refusal, Station};

use crate::failure::{Failure, Outcome};
use crate::held::Held;
use crate::layer_files::listed;
use crate::options::{Kind, Options};
use crate::settings::{self, layer_named, Wanted};
use crate::state_file::agrees;
use crate::streams::{finish, in_turn, open, Stream};
use crate::told::Frame;
use task::{coded, Task};

pub const OPTIONS: &[(&str, Kind)] = &[
    settings::NAMES[0],
    settings::NAMES[1],
    settings::NAMES[2],
    settings::NAMES[3],
    ("--layer", Kind::Value),
    ("-i", Kind::Values),
    ("-o", Kind::Values),
    ("--state", Kind::Value),
    ("--frame", Kind::Value),
    ("--packet", Kind::Value),
    ("--old", Kind::Value),
    ("--new", Kind::Value),
    ("--unchecked", Kind::Flag),
    ("--quiet", Kind::Flag),
];

/// The layer that is meant: the one that is named, or the only one that is used.
fn layer_meant(options: &Options, station: Station) -> Outcome<(LayerName, Layer)> {
    let used: Vec<(LayerName, Layer)> = station.used().collect();
    let written = match options.value("--layer") {
        Some(written) => written,
        None => {
            return match used[..] {
                [] => Err(Failure::unused(None)),
                [only] => Ok(only),
                _ => Err(Failure::Usage(format!(
                    "layers {} are used, and --layer names none of them",
                    listed(&used)
                ))),
            };
        }
    };
    let written = written.to_string_lossy();
    let name = match layer_named(&written) {
        Some(name) => name,
        None => {
            return Err(Failure::Usage(format!(
                "--layer is A, B or C, not {written}"
            )));
        }
    };
    match station.layer(name) {
        Some(layer) => Ok((name, layer)),
        None => Err(Failure::unused(Some(name))),
    }
}

/// Why a packet was not replaced.
fn refused(
    refusal: Refusal,
    carriers: &[u8],
    layer: Layer,
    number: usize,
    frame: &Frame,
) -> Failure {
    if refusal != Refusal::Number {
        return frame.refused(refusal, carriers, layer);
    }
    let count = layer.packets();
    let what = format!("there is no packet {number}: a frame has {count}, counted from 0");
    Failure::at(what, refusal)
}

/// A packet that runs on into the next frame, which is coded already.
fn runs_on(number: usize, frame: usize) -> Failure {
    let next = frame + 1;
    Failure::Refused(format!(
        "packet {number} of frame {frame} runs on into frame {next}, which is coded already: \
         replace it before frame {next} is coded"
    ))
}

/// What goes along with the frames of a layer: one is held back until it is known whether another follows.
struct Work {
    held: Option<Vec<u8>>,
    area: Vec<u8>,
    said: Option<String>,
}

impl Work {
    fn new(layer: Layer) -> Work {
        Work {
            held: None,
            area: vec![0; layer.carriers()],
            said: None,
        }
    }
}

/// Replaces the packet in a frame, whose next one is coded already or not, and says how many carriers changed.
fn replace(
    coder: &mut Coder,
    stream: &Stream,
    task: &Task,
    (frame, carriers): (usize, &mut [u8]),
    next: Option<&[u8]>,
) -> Outcome<String> {
    let (layer, number, all) = (stream.layer, task.number, carriers.len());
    let place = Frame {
        number: frame,
        begin: (frame * all) as u64,
        input: stream.input.name(),
    };
    if number >= layer.packets() {
        return Err(refused(Refusal::Number, carriers, layer, number, &place));
    }
    let mut packets = Vec::new();
    if task.checked {
        packets = coded(coder, stream, carriers, next, &place)?;
        task.compare(&packets, frame)?;
    }
    let (before, mut after) = (carriers.to_vec(), coder.clone());
    let old = task.old(&packets);
    let done = after.replace_unchecked(stream.name, carriers, number, old, &task.new);
    done.map_err(|why| refused(why, carriers, layer, number, &place))?;
    let state_changed = after != *coder;
    if state_changed && next.is_some() {
        return Err(runs_on(number, frame));
    }
    *coder = after;
    let pairs = before.iter().zip(&*carriers);
    let changed = pairs.filter(|(one, other)| one != other).count();
    let state = match state_changed {
        true => "so did the state",
        false => "the state stays",
    };
    Ok(format!(
        "packet {number} of frame {frame}: {changed} of {all} carriers changed, {state}"
    ))
}

/// Reads the next frame and writes what is known by then: a frame in which nothing is replaced, or the one in which the packet
/// has been. Says whether there may be more.
fn turn(stream: &mut Stream, work: &mut Work, coder: &mut Coder, task: &Task) -> Outcome<bool> {
    let filled = stream.input.fill(&mut work.area)?;
    let frame = stream.frames;
    if filled > 0 && filled < work.area.len() {
        let begin = stream.input.place - filled as u64;
        let (number, input) = (frame, stream.input.name());
        let short = Frame {
            number,
            begin,
            input,
        };
        return Err(short.short(filled, stream.layer));
    }
    let next = (filled > 0).then_some(&work.area[..]);
    if let Some(mut held) = work.held.take() {
        if next.is_none() || task.frame.is_some() {
            let meant = (frame - 1, &mut held[..]);
            work.said = Some(replace(coder, stream, task, meant, next)?);
        }
        stream.output.write(&held)?;
    }
    if next.is_none() {
        return match work.said {
            Some(_) => Ok(false),
            None => Err(missing(stream, task.frame)),
        };
    }
    stream.frames += 1;
    match task.frame {
        Some(meant) if meant != frame => stream.output.write(&work.area)?,
        _ => work.held = Some(work.area.clone()),
    }
    Ok(true)
}

/// The frame that is meant isn't there.
fn missing(stream: &Stream, frame: Option<usize>) -> Failure {
    let (name, count) = (stream.input.name(), stream.frames);
    match frame {
        Some(frame) if count > 0 => {
            let what = format!("there is no frame {frame}: {name} has {count}, counted from 0");
            Failure::at(what, Refusal::Number)
        }
        _ => Failure::at(format!("{name} has no frame"), Refusal::CarriersLength),
    }
}

pub fn run(options: &Options) -> Outcome {
    let path = options.needed_path("--state")?;
    Task::check_words(options)?;
    let wanted = Wanted::read_alone(options)?;
    let mut held: Held<Coder> = Held::resume("replace", options)?;
    let station = held.station();
    agrees(path, station, &wanted)?;
    let meant = layer_meant(options, station)?;
    let task = Task::read(options)?;
    let mut layers = open(options, station, &[meant], Work::new)?;
    in_turn(
        "replace",
        options,
        &mut held,
        &mut layers,
        |coder, stream, work| turn(stream, work, coder, &task),
    )?;
    finish("replace", options, &held, layers, |work, _| {
        work.said.clone().unwrap_or_default()
    })
}
