//! The streams of a run: its layers, what is read and written for each, and their frames in turn.

use warintaya::{Layer, LayerName, Station};

use crate::ending::{self, leave};
use crate::failure::{Failure, Outcome};
use crate::far::SoFar;
use crate::files::{self, Input, Output};
use crate::held::Held;
use crate::json;
use crate::layer_files::{chosen, Chosen};
use crate::options::Options;
use crate::places;
use crate::progress::{summary, Progress};
use crate::signals;
use crate::state_file::Kept;

/// A layer of a run, with its input and its output.
pub struct Stream {
    pub name: LayerName,
    pub layer: Layer,
    pub input: Input,
    pub output: Output,
    /// How many frames of it are done, and what is told of them on the way.
    pub frames: usize,
    pub so_far: SoFar,
    /// How many bytes have been read ahead of them.
    pub ahead: u64,
    /// How many bytes of the input those have taken.
    pub taken: u64,
    /// Whether what is written goes out at once; a file takes its place at the end.
    pub direct: bool,
    pub ended: bool,
    /// Whether its layer is named in what is said: where the station has others.
    pub named: bool,
}

impl Stream {
    fn open(chosen: Chosen, named: bool) -> Outcome<Stream> {
        let input = Input::open(chosen.input)?;
        let output = Output::create(chosen.output)?;
        Ok(Stream {
            name: chosen.name,
            layer: chosen.layer,
            input,
            direct: output.direct(),
            output,
            frames: 0,
            so_far: SoFar::default(),
            ahead: 0,
            taken: 0,
            ended: false,
            named,
        })
    }

    /// Words about its layer.
    pub fn words(&self, what: &str) -> String {
        match self.named {
            true => format!("layer {}: {what}", self.name),
            false => what.to_string(),
        }
    }

    /// A failure of its layer.
    pub fn failed(&self, failure: Failure) -> Failure {
        match failure {
            Failure::Refused(what) => Failure::Refused(self.words(&what)),
            other => other,
        }
    }
}

/// Opens what the options `-i` and `-o` name for these of a station's layers, each with what goes along with it. What can't be
/// written is refused before anything is opened.
pub fn open<W>(
    options: &Options,
    station: Station,
    layers: &[(LayerName, Layer)],
    work: impl Fn(Layer) -> W,
) -> Outcome<Vec<(Stream, W)>> {
    if layers.is_empty() {
        return Err(Failure::unused(None));
    }
    let chosen = chosen(options, station, layers)?;
    let mut written = chosen.iter().filter_map(|one| one.output);
    written.try_for_each(places::writable)?;
    json::apart(options, chosen.iter().filter_map(|one| one.input))?;
    let named = station.used().count() > 1;
    let opened = chosen.into_iter().map(|one| {
        let work = work(one.layer);
        Ok((Stream::open(one, named)?, work))
    });
    opened.collect()
}

/// The same for all layers that a station uses.
pub fn open_used<W>(
    options: &Options,
    station: Station,
    work: impl Fn(Layer) -> W,
) -> Outcome<Vec<(Stream, W)>> {
    let used: Vec<(LayerName, Layer)> = station.used().collect();
    open(options, station, &used, work)
}

/// The bytes that there are to read in all, if that is known.
fn length<W>(layers: &[(Stream, W)]) -> Option<u64> {
    layers.iter().map(|(stream, _)| stream.input.length()).sum()
}

/// Does the next frame of a layer. One that didn't go out whole is taken back.
fn one_turn<K: Kept, W>(
    held: &mut Held<K>,
    (stream, work): &mut (Stream, W),
    turn: &mut impl FnMut(&mut K, &mut Stream, &mut W) -> Outcome<bool>,
) -> Outcome {
    let (frames, part) = (stream.frames, held.part(stream.name).to_vec());
    match turn(held.kept(), stream, work) {
        Ok(more) => {
            stream.taken = stream.input.place - stream.ahead;
            if !more {
                stream.ended = true;
                stream.output.end();
            }
            Ok(())
        }
        Err(failure) => {
            if stream.frames == frames {
                held.take_back(stream.name, &part);
            }
            Err(stream.failed(failure))
        }
    }
}

/// Does a frame of each layer in turn until all have ended. `turn` does a layer's next frame, and says whether there may be more;
/// a layer that ends before the others is done. A run that can go on later is left behind whole frames when a signal has come;
/// [`finish`] then says so.
pub fn in_turn<K: Kept, W>(
    command: &'static str,
    options: &Options,
    held: &mut Held<K>,
    layers: &mut [(Stream, W)],
    mut turn: impl FnMut(&mut K, &mut Stream, &mut W) -> Outcome<bool>,
) -> Outcome {
    let mut progress = Progress::new(command, length(layers), options.has("--quiet"));
    let (every, mut rounds) = (options.count("--keep-every")?, 0);
    while layers.iter().any(|(stream, _)| !stream.ended) {
        for place in 0..layers.len() {
            if layers[place].0.ended {
                continue;
            }
            match one_turn(held, &mut layers[place], &mut turn) {
                Err(failure @ Failure::Ended(..)) if held.goes_on() && !signals::at_once() => {
                    return ending::in_order(layers, failure);
                }
                done => done.map_err(|failure| leave(held, layers, failure))?,
            }
        }
        rounds += 1;
        if every.map_or(false, |every| rounds % every == 0) {
            held.keep()?;
        }
        let streams = || layers.iter().map(|(stream, _)| stream);
        let bytes = streams().map(|stream| stream.input.place).sum();
        let frames = streams().map(|stream| stream.frames).sum();
        progress.say(frames, bytes, streams().map(|stream| stream.so_far).sum());
    }
    Ok(())
}

/// Ends a run: all that was written takes its place, the record too if it is kept, and a line for each layer says what was done.
pub fn finish<K: Kept, W>(
    command: &str,
    options: &Options,
    held: &Held<K>,
    mut layers: Vec<(Stream, W)>,
    words: impl Fn(&W, usize) -> String,
) -> Outcome {
    let outputs = layers.iter_mut().map(|(stream, _)| &mut stream.output);
    let finished = files::finish(outputs, held.path(), held.record());
    finished.map_err(|failure| leave(held, &layers, failure))?;
    let said: Vec<String> = layers
        .iter()
        .map(|(stream, work)| stream.words(&words(work, stream.frames)))
        .collect();
    summary(command, options, &said);
    ending::told(&layers)
}
