//! Which packet is replaced by which, and what was coded in its place.

use std::path::Path;

use warintaya::{Coder, NotReplaced, Refusal, PACKET, SYNC};

use crate::failure::{Failure, Outcome};
use crate::files;
use crate::options::Options;
use crate::streams::Stream;
use crate::told::Frame;

/// What is to be replaced.
pub struct Task {
    pub number: usize,
    /// The frame, or the last one.
    pub frame: Option<usize>,
    old: Option<(Vec<u8>, String)>,
    pub new: Vec<u8>,
    /// Whether it is read first which packet was coded there.
    pub checked: bool,
}

impl Task {
    /// Looks at the words before any file is.
    pub fn check_words(options: &Options) -> Outcome {
        packet_number(options)?;
        options.number("--frame")?;
        options.needed_path("--new")?;
        match options.has("--unchecked") && !options.has("--old") {
            true => Err(Failure::Usage("--unchecked needs --old FILE".to_string())),
            false => Ok(()),
        }
    }

    /// Reads the packets.
    pub fn read(options: &Options) -> Outcome<Task> {
        let old = match options.path("--old") {
            Some(path) => Some((read_packet(path)?, path.display().to_string())),
            None => None,
        };
        Ok(Task {
            number: packet_number(options)?,
            frame: options.number("--frame")?,
            old,
            new: read_packet(options.needed_path("--new")?)?,
            checked: !options.has("--unchecked"),
        })
    }

    /// The packet that is replaced, of the packets that were coded if they have been read.
    pub fn old<'a>(&'a self, coded: &'a [u8]) -> &'a [u8] {
        match &self.old {
            Some((old, _)) => old,
            None => coded
                .get(PACKET * self.number..)
                .map_or(&[], |rest| &rest[..PACKET]),
        }
    }

    /// Refuses another packet than the one that was coded: which one it is, and where the two differ first.
    pub fn compare(&self, coded: &[u8], frame: usize) -> Outcome {
        let (old, name) = match &self.old {
            Some((old, name)) => (old, name),
            None => return Ok(()),
        };
        let (number, packet) = (self.number, &coded[PACKET * self.number..][..PACKET]);
        let byte = match packet.iter().zip(old).position(|(coded, old)| coded != old) {
            Some(byte) => byte,
            None => return Ok(()),
        };
        let (identifier, there, here) = (identifier(packet), packet[byte], old[byte]);
        let mut what = format!(
            "packet {number} of frame {frame}, with the identifier {identifier:04X}, is another one than {name}: \
             byte {byte} is {there:02X} and not {here:02X}"
        );
        if let Some(place) = coded.chunks(PACKET).position(|packet| packet == old) {
            what += &format!("; {name} is packet {place}");
        }
        Err(Failure::Refused(what))
    }
}

/// The packet identifier, which tells to which part of the programme a packet belongs.
fn identifier(packet: &[u8]) -> u16 {
    u16::from(packet[1] & 0x1F) << 8 | u16::from(packet[2])
}

/// The number of the packet that is meant.
fn packet_number(options: &Options) -> Outcome<usize> {
    let number = options.number("--packet")?;
    number.ok_or_else(|| Failure::Usage("--packet NUMBER is missing".to_string()))
}

/// A packet out of a file.
fn read_packet(path: &Path) -> Outcome<Vec<u8>> {
    let packet = files::read_exactly(path, PACKET, "a packet")?;
    if packet[0] != SYNC {
        let (name, first) = (path.display(), packet[0]);
        let what = format!("{name} begins with {first:02X} and not with 47");
        return Err(Failure::at(what, Refusal::Sync));
    }
    Ok(packet)
}

/// The packets of a frame, from its carriers and from what is behind them: the frame that follows, or the record.
pub fn coded(
    coder: &Coder,
    stream: &Stream,
    carriers: &[u8],
    next: Option<&[u8]>,
    place: &Frame,
) -> Outcome<Vec<u8>> {
    let read = match next {
        Some(next) => coder.station().coded_packets(stream.name, carriers, next),
        None => coder.coded_packets(stream.name, carriers),
    };
    read.map_err(|why| match why {
        NotReplaced::Refused(refusal) => {
            let told = place.refused(refusal, carriers, stream.layer);
            let behind = place.next(carriers.len());
            match next {
                Some(next) if told == refusal.into() => behind.refused(refusal, next, stream.layer),
                _ => told,
            }
        }
        NotReplaced::NotTogether { packet } => apart(packet, place.number, next.is_some()),
        other => other.into(),
    })
}

/// A packet that doesn't come back from a frame and what is behind it.
fn apart(packet: usize, frame: usize, followed: bool) -> Failure {
    let behind = match followed {
        true => format!("frame {}", frame + 1),
        false => "the state".to_string(),
    };
    Failure::Refused(format!(
        "packet {packet} of frame {frame} can't be read back: {behind} is not what coding this frame has left, or carriers \
         are damaged; --unchecked replaces without reading"
    ))
}
