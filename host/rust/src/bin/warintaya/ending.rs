//! What a run that ends before its streams do leaves, and says.

use warintaya::LayerName;

use crate::failure::{Failure, Outcome};
use crate::held::Held;
use crate::signals;
use crate::state_file::Kept;
use crate::streams::Stream;
use crate::told::{counted, listed};

/// A failed run leaves a state that fits what went out: of a layer whose frames went out at once that behind the last whole one, of
/// a layer whose file doesn't take its place that from before. The failure says so.
pub fn leave<K: Kept, W>(held: &Held<K>, layers: &[(Stream, W)], failure: Failure) -> Failure {
    let streams = layers.iter().map(|(stream, _)| stream);
    let out: Vec<&Stream> = streams
        .filter(|stream| stream.direct && stream.frames > 0)
        .collect();
    if out.is_empty() || !held.goes_on() {
        return failure;
    }
    let names: Vec<LayerName> = out.iter().map(|stream| stream.name).collect();
    match held.keep_parts(&names) {
        Ok(()) => failure.and(&format!("the state is kept behind {}", last_frames(&out))),
        Err(Failure::Refused(why)) => failure.and(&format!("nor is the state kept: {why}")),
        Err(_) => failure,
    }
}

/// The last frames of some streams.
fn last_frames(streams: &[&Stream]) -> String {
    let frames = streams.iter().map(|stream| {
        let frame = format!("frame {}", stream.frames - 1);
        match stream.named {
            true => format!("{frame} of layer {}", stream.name),
            false => frame,
        }
    });
    listed(&frames.collect::<Vec<String>>())
}

/// Where a stream was left, and how much of its next frame had been read.
fn left(stream: &Stream) -> String {
    let layer = match stream.named {
        true => format!(", layer {}", stream.name),
        false => String::new(),
    };
    let place = format!("{layer} behind {}", counted(stream.frames, "frame"));
    match stream.input.place - stream.taken {
        0 => place,
        rest => {
            let (rest, name) = (counted(rest, "byte"), stream.input.name());
            format!("{place}, with {rest} of the next read from {name} and not taken")
        }
    }
}

/// A run that a signal ends between frames goes on to its end in order, unless no frame is done: then all stays as it was.
pub fn in_order<W>(layers: &[(Stream, W)], failure: Failure) -> Outcome {
    let done = layers.iter().any(|(stream, _)| stream.frames > 0);
    match failure {
        _ if done => Ok(()),
        Failure::Ended(signal, _) => Err(Failure::Ended(signal, places(layers))),
        other => Err(other),
    }
}

/// Where all streams were left.
fn places<W>(layers: &[(Stream, W)]) -> String {
    layers.iter().map(|(stream, _)| left(stream)).collect()
}

/// The failure of a run that a signal has ended behind whole frames, its outputs in their places and its state kept.
pub fn told<W>(layers: &[(Stream, W)]) -> Outcome {
    match signals::first() {
        Some(signal) if layers.iter().any(|(stream, _)| !stream.ended) => {
            let what = format!("{}; the state is kept", places(layers));
            Err(Failure::Ended(signal, what))
        }
        _ => Ok(()),
    }
}
