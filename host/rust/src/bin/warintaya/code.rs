//! `warintaya code`: transport streams into frames of carriers.

use warintaya::{Coder, Layer, Refusal, DELAY, PACKET};

use crate::failure::{Failure, Outcome};
use crate::guard::{self, Guard};
use crate::held::Held;
use crate::live::Live;
use crate::options::{Kind, Options};
use crate::packets::{Notes, Packets};
use crate::padding::padding;
use crate::progress::tell;
use crate::settings::{self, Wanted};
use crate::streams::{finish, in_turn, open_used, Stream};
use crate::told::counted;

pub const OPTIONS: &[(&str, Kind)] = &[
    settings::NAMES[0],
    settings::NAMES[1],
    settings::NAMES[2],
    settings::NAMES[3],
    settings::NAMES[4],
    ("-i", Kind::Values),
    ("-o", Kind::Values),
    ("--state", Kind::Value),
    ("--keep-every", Kind::Value),
    ("--fill", Kind::Flag),
    ("--exact", Kind::Flag),
    ("--resync", Kind::Flag),
    ("--stuff", Kind::Flag),
    guard::OPTION,
    ("--quiet", Kind::Flag),
];

/// Where packets come from: the input itself, which is waited for, or a thread that reads it.
enum Source {
    Waited(Packets),
    Live(Live),
}

impl Source {
    fn notes(&mut self) -> &mut Notes {
        match self {
            Source::Waited(packets) => &mut packets.notes,
            Source::Live(live) => &mut live.notes,
        }
    }
}

/// What goes along with a layer's stream: its areas, and what has been counted.
struct Work {
    source: Source,
    area: Vec<u8>,
    carriers: Vec<u8>,
    /// Whether a frame of padding is still to come.
    owed: bool,
    /// Packets of the stream, those of them that look like padding, padding put in where the input paused, and at its end.
    packets: u64,
    alike: u64,
    stuffed: u64,
    padded: u64,
    /// How many packets of padding stand behind the last one of the stream.
    behind: usize,
}

impl Work {
    fn new(layer: Layer, resync: bool) -> Work {
        Work {
            source: Source::Waited(Packets::new(resync)),
            area: vec![0; PACKET * layer.packets()],
            carriers: vec![0; layer.carriers()],
            owed: false,
            packets: 0,
            alike: 0,
            stuffed: 0,
            padded: 0,
            behind: 0,
        }
    }

    /// Reads the packets of the next frame. Says how many bytes of the area they fill, and whether the input has ended.
    fn read(&mut self, stream: &mut Stream) -> Outcome<(usize, bool)> {
        let (filled, ended) = match &mut self.source {
            Source::Waited(packets) => {
                let filled = packets.fill(&mut stream.input, &mut self.area)?;
                stream.ahead = stream.input.place - packets.place();
                (filled, filled < self.area.len())
            }
            Source::Live(live) => {
                let filled = live.fill(&mut self.area);
                (stream.input.place, stream.ahead) = live.places();
                filled?
            }
        };
        let padding = padding();
        let packets = self.area[..filled].chunks_exact(PACKET);
        self.packets += packets.len() as u64;
        self.alike += packets.filter(|packet| **packet == padding).count() as u64;
        Ok((filled, ended))
    }

    /// Fills the area up with padding, behind so many bytes, and says how many packets of it that are.
    fn pad(&mut self, length: usize) -> u64 {
        let rest = &mut self.area[length..];
        let padded = rest.len() / PACKET;
        rest.copy_from_slice(&padding().repeat(padded));
        self.behind = padded + if length == 0 { self.behind } else { 0 };
        padded as u64
    }

    /// Codes the frame that stands in the area, and writes its carriers.
    fn frame(&mut self, stream: &mut Stream, coder: &mut Coder) -> Outcome {
        coder.code(stream.name, &self.area, &mut self.carriers)?;
        stream.output.write(&self.carriers)?;
        stream.frames += 1;
        stream.so_far.packets = self.packets;
        Ok(())
    }

    /// Codes a last frame, filled up with padding. So much of it is wanted that a receiver gives all packets of the stream: where
    /// there is too little another frame is owed.
    fn last(&mut self, stream: &mut Stream, coder: &mut Coder, length: usize) -> Outcome<bool> {
        self.padded += self.pad(length);
        self.frame(stream, coder)?;
        self.owed = self.behind < DELAY;
        Ok(self.owed)
    }

    /// Tells what was left out of the input.
    fn tell(&mut self, stream: &Stream) {
        for line in self.source.notes().lines.drain(..) {
            tell("code", &stream.words(&line));
        }
    }

    /// What was done in so many frames.
    fn words(&self, frames: usize) -> String {
        let (packets, padded) = (counted(self.packets, "packet"), self.padded);
        let (frames, length) = (counted(frames as u64, "frame"), self.carriers.len());
        let stuffed = match &self.source {
            Source::Waited(_) => String::new(),
            Source::Live(_) => format!(", {} stuffed", self.stuffed),
        };
        let mut words =
            format!("{packets}{stuffed} and {padded} of padding in {frames} of {length} carriers");
        words += &match &self.source {
            Source::Waited(packets) => packets.notes.words(),
            Source::Live(live) => live.notes.words(),
        };
        if self.alike > 0 {
            let alike = match self.alike {
                1 => "1 packet of the stream is padding itself".to_string(),
                alike => format!("{alike} packets of the stream are padding themselves"),
            };
            words += &format!("; {alike}, which 'back' leaves out");
        }
        words
    }
}

/// A stream that ends within a frame, behind so many bytes of it, where no padding may be put in.
fn unfilled(stream: &Stream, packets: &Packets, length: usize) -> Failure {
    let (count, have) = (stream.layer.packets(), length / PACKET);
    let have = counted(have as u64, "packet");
    let cut = match packets.notes.cut {
        true => " and a part of one",
        false => "",
    };
    let (name, frame, place) = (stream.input.name(), stream.frames, packets.first());
    Failure::at(
        format!(
            "frame {frame}, which begins at byte {place} of {name}, has {have}{cut} and not {count}; --fill pads it"
        ),
        Refusal::Length,
    )
}

/// Codes the next frame of a stream, and says whether there may be more. It is one frame, also at the end: who reads the carriers
/// of several layers from pipes takes a frame of each in turn.
fn turn(stream: &mut Stream, work: &mut Work, coder: &mut Coder, fill: bool) -> Outcome<bool> {
    if work.owed {
        work.last(stream, coder, 0)?;
        return Ok(false);
    }
    let (filled, ended) = work.read(stream)?;
    match &work.source {
        Source::Waited(packets) if ended && !fill && filled > 0 => {
            return Err(unfilled(stream, packets, filled));
        }
        _ => work.tell(stream),
    }
    if !ended {
        work.stuffed += work.pad(filled);
        work.frame(stream, coder)?;
        return Ok(true);
    }
    let all_out = filled == 0 && (work.packets == 0 || work.behind >= DELAY);
    match fill && !all_out {
        true => work.last(stream, coder, filled),
        false => Ok(false),
    }
}

/// The time of a frame, where frames are stuffed.
fn stuffing(options: &Options) -> Outcome<Option<Guard>> {
    let usage = |what: &str| Err(Failure::Usage(what.to_string()));
    match (Guard::read(options)?, options.has("--stuff")) {
        (Some(_), true) if options.has("--exact") => {
            usage("--stuff and --exact exclude each other")
        }
        (Some(guard), true) => Ok(Some(guard)),
        (None, true) => usage("--stuff needs --guard, which gives the time of a frame"),
        (Some(_), false) => usage("--guard is for --stuff"),
        (None, false) => Ok(None),
    }
}

pub fn run(options: &Options) -> Outcome {
    let state = options.path("--state");
    if options.has("--fill") && options.has("--exact") {
        return Err(Failure::Usage(
            "--fill and --exact exclude each other".to_string(),
        ));
    }
    let stuffing = stuffing(options)?;
    let resync = options.has("--resync");
    // a stream whose state is kept goes on in another run
    let fill =
        options.has("--fill") || stuffing.is_some() || state.is_none() && !options.has("--exact");
    let mut held: Held<Coder> = Held::begin("code", options, &Wanted::read(options)?)?;
    let station = held.station();
    let mut layers = open_used(options, station, |layer| Work::new(layer, resync))?;
    if let Some(guard) = stuffing {
        let time = guard.frame(station.mode());
        for (stream, work) in &mut layers {
            let (packets, count) = (Packets::new(resync), stream.layer.packets());
            let live = Live::start(&stream.input, packets, count, time)?;
            work.source = Source::Live(live);
        }
    }
    in_turn(
        "code",
        options,
        &mut held,
        &mut layers,
        |coder, stream, work| turn(stream, work, coder, fill),
    )?;
    finish("code", options, &held, layers, Work::words)
}
