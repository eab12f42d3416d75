//! `warintaya back`: frames of carriers into transport streams.

use warintaya::{lost_packet, Layer, Packet, Receiver, SLOT};

use crate::counts::Counts;
use crate::failure::{Failure, Outcome};
use crate::held::Held;
use crate::json::{Frames, Lines};
use crate::options::{Kind, Options};
use crate::padding::padding;
use crate::settings::{self, Wanted};
use crate::streams::{finish, in_turn, open_used, Stream};
use crate::told::Frame;

pub const OPTIONS: &[(&str, Kind)] = &[
    settings::NAMES[0],
    settings::NAMES[1],
    settings::NAMES[2],
    settings::NAMES[3],
    settings::NAMES[4],
    ("-i", Kind::Values),
    ("-o", Kind::Values),
    ("--state", Kind::Value),
    ("--keep-every", Kind::Value),
    ("--slots", Kind::Flag),
    ("--leave-out-lost", Kind::Flag),
    ("--keep-padding", Kind::Flag),
    ("--json", Kind::Value),
    ("--fail-on-loss", Kind::Flag),
    ("--quiet", Kind::Flag),
];

/// What is written of the packets.
struct Choice {
    slots: bool,
    leave_out_lost: bool,
    keep_padding: bool,
}

/// The bytes to write for the slots of a frame, and what is counted of them.
fn written(slots: &[u8], choice: &Choice) -> (Vec<u8>, Counts) {
    let (mut bytes, mut counts) = (Vec::with_capacity(slots.len()), Counts::default());
    let padding = padding();
    for slot in slots.chunks_exact(SLOT) {
        // a given slot can always be read
        let packet = match Packet::read(slot) {
            Some(packet) => packet,
            None => continue,
        };
        counts.packet(packet);
        let before = bytes.len();
        match packet {
            _ if choice.slots => bytes.extend(slot),
            Packet::Corrected(_, packet) if *packet == padding && !choice.keep_padding => {
                counts.padding += 1
            }
            Packet::Corrected(_, packet) => bytes.extend(packet),
            Packet::WrongStart | Packet::Lost if choice.leave_out_lost => {}
            Packet::WrongStart | Packet::Lost => bytes.extend(lost_packet()),
        }
        counts.written += u64::from(bytes.len() > before);
    }
    (bytes, counts)
}

/// What goes along with a layer's stream: the area of a frame, what has been counted, and its frames where each is told.
struct Work {
    area: Vec<u8>,
    counts: Counts,
    frames: Option<Frames>,
}

impl Work {
    fn new(layer: Layer) -> Work {
        Work {
            area: vec![0; layer.carriers()],
            counts: Counts::default(),
            frames: None,
        }
    }
}

/// Receives the next frame of a stream, and says whether there may be more.
fn turn(
    stream: &mut Stream,
    work: &mut Work,
    receiver: &mut Receiver,
    choice: &Choice,
    lines: &mut Option<Lines>,
) -> Outcome<bool> {
    let filled = stream.input.fill(&mut work.area)?;
    if filled == 0 {
        return Ok(false);
    }
    let carriers = &work.area[..filled];
    let received = receiver.receive(stream.name, carriers).map_err(|refusal| {
        let frame = Frame {
            number: stream.frames,
            begin: stream.input.place - filled as u64,
            input: stream.input.name(),
        };
        frame.refused(refusal, carriers, stream.layer)
    })?;
    let (bytes, counts) = written(received.slots(), choice);
    stream.output.write(&bytes)?;
    // the frame is out, whatever becomes of its line
    let number = stream.frames;
    stream.frames += 1;
    work.counts.add(&counts);
    stream.so_far = work.counts.so_far();
    if let (Some(frames), Some(lines)) = (&mut work.frames, lines) {
        frames.frame(lines, number, carriers, received.slots(), counts)?;
    }
    Ok(true)
}

/// Opens what `--json` names, and sets the layers to tell each frame.
fn lines(options: &Options, layers: &mut [(Stream, Work)]) -> Outcome<Option<Lines>> {
    let lines = Lines::open(options)?;
    if let Some(lines) = &lines {
        if lines.standard() && layers.iter().any(|(stream, _)| stream.output.standard()) {
            let what = "--json names standard output, and the packets are written there";
            return Err(Failure::Usage(what.to_string()));
        }
        for (stream, work) in layers {
            work.frames = Some(Frames::new(stream.name, stream.layer));
        }
    }
    Ok(lines)
}

/// Tells of the last frame of each layer.
fn end(lines: &mut Option<Lines>, layers: &mut [(Stream, Work)]) -> Outcome {
    for (_, work) in layers {
        if let (Some(frames), Some(lines)) = (&mut work.frames, lines.as_mut()) {
            frames.end(lines)?;
        }
    }
    Ok(())
}

/// What is written of the packets, as the options have it.
fn choice(options: &Options) -> Outcome<Choice> {
    let others = ["--leave-out-lost", "--keep-padding"];
    if let Some(other) = others.into_iter().find(|other| options.has(other)) {
        if options.has("--slots") {
            let what = format!("--slots and {other} exclude each other");
            return Err(Failure::Usage(what));
        }
    }
    Ok(Choice {
        slots: options.has("--slots"),
        leave_out_lost: options.has("--leave-out-lost"),
        keep_padding: options.has("--keep-padding"),
    })
}

pub fn run(options: &Options) -> Outcome {
    let choice = choice(options)?;
    let mut held: Held<Receiver> = Held::begin("back", options, &Wanted::read(options)?)?;
    let mut layers = open_used(options, held.station(), Work::new)?;
    let mut lines = lines(options, &mut layers)?;
    let done = in_turn(
        "back",
        options,
        &mut held,
        &mut layers,
        |receiver, stream, work| turn(stream, work, receiver, &choice, &mut lines),
    );
    let told = end(&mut lines, &mut layers);
    done.and(told)?;
    let mut all = Counts::default();
    layers.iter().for_each(|(_, work)| all.add(&work.counts));
    finish("back", options, &held, layers, |work, frames| {
        work.counts.words(frames)
    })?;
    match all.loss() {
        Some(loss) if options.has("--fail-on-loss") => Err(Failure::Refused(loss)),
        _ => Ok(()),
    }
}
