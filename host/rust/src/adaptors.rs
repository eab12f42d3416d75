//! Whole streams behind the standard library's `Read` and `Write`.

use std::io::{self, ErrorKind, Read, Write};

use crate::{Coder, Layer, LayerName, Packet, Receiver, Refusal, PACKET, SYNC};

/// Bytes that go in frame by frame and come out as others: packets as carriers ([`Coding`]), or carriers as packets
/// ([`Receiving`]).
pub trait Frames {
    /// How many bytes of a frame go in.
    fn length(&self) -> usize;

    /// Takes a frame and puts what comes out behind what stands in `out`.
    ///
    /// # Errors
    ///
    /// The refusal of the frame; nothing is altered then.
    fn take(&mut self, frame: &[u8], out: &mut Vec<u8>) -> Result<(), Refusal>;
}

/// A layer of a [`Coder`]: packets go in, carriers come out.
#[derive(Clone, Debug, PartialEq, Eq)]
pub struct Coding {
    coder: Coder,
    name: LayerName,
    layer: Layer,
}

impl Coding {
    /// Goes on with this layer of a coder.
    ///
    /// # Errors
    ///
    /// [`Refusal::LayerUnused`] if the layer isn't used.
    pub fn new(coder: Coder, name: LayerName) -> Result<Coding, Refusal> {
        let layer = coder.station().layer(name).ok_or(Refusal::LayerUnused)?;
        Ok(Coding { coder, name, layer })
    }

    /// The coder, behind the frames that it has coded.
    pub fn into_coder(self) -> Coder {
        self.coder
    }
}

impl Frames for Coding {
    fn length(&self) -> usize {
        PACKET * self.layer.packets()
    }

    fn take(&mut self, frame: &[u8], out: &mut Vec<u8>) -> Result<(), Refusal> {
        let before = out.len();
        out.resize(before + self.layer.carriers(), 0);
        let coded = self.coder.code(self.name, frame, &mut out[before..]);
        if coded.is_err() {
            out.truncate(before);
        }
        coded
    }
}

/// A layer of a [`Receiver`]: carriers go in, packets come out, 12 of them late. For a packet that can't be had comes
/// [`lost_packet`], so that the others keep their places.
#[derive(Clone, Debug, PartialEq, Eq)]
pub struct Receiving {
    receiver: Receiver,
    name: LayerName,
    layer: Layer,
}

impl Receiving {
    /// Goes on with this layer of a receiver.
    ///
    /// # Errors
    ///
    /// [`Refusal::LayerUnused`] if the layer isn't used.
    pub fn new(receiver: Receiver, name: LayerName) -> Result<Receiving, Refusal> {
        let layer = receiver.station().layer(name).ok_or(Refusal::LayerUnused)?;
        Ok(Receiving {
            receiver,
            name,
            layer,
        })
    }

    /// The receiver, behind the frames that it has taken.
    pub fn into_receiver(self) -> Receiver {
        self.receiver
    }
}

impl Frames for Receiving {
    fn length(&self) -> usize {
        self.layer.carriers()
    }

    fn take(&mut self, frame: &[u8], out: &mut Vec<u8>) -> Result<(), Refusal> {
        for packet in &self.receiver.receive(self.name, frame)? {
            match packet {
                Packet::Corrected(_, packet) => out.extend(packet),
                Packet::WrongStart | Packet::Lost => out.extend(lost_packet()),
            }
        }
        Ok(())
    }
}

/// A null packet with the transport error indicator: it stands for a packet that could not be had.
pub fn lost_packet() -> [u8; PACKET] {
    let mut packet = [0xFF; PACKET];
    packet[..4].copy_from_slice(&[SYNC, 0x9F, 0xFF, 0x10]);
    packet
}

/// A refusal as an error of reading or writing; `get_ref` and a downcast have it again.
fn bad(refusal: Refusal) -> io::Error {
    io::Error::new(ErrorKind::InvalidData, refusal)
}

/// A stream that ends within a frame.
fn cut(have: usize, length: usize) -> io::Error {
    let what = format!("the stream ends within a frame, behind {have} bytes of {length}");
    io::Error::new(ErrorKind::UnexpectedEof, what)
}

/// Reads frames from another reader, and gives what comes out of them.
///
/// ```
/// use std::io::Read;
/// use warintaya::{Coder, Coding, FrameReader, Layer, LayerName, Receiver, Receiving, PACKET};
///
/// // a stream is coded and received without ever being whole in memory
/// let layer = Layer::new(1, 2, 1, 1)?;
/// let stream = vec![0x47; 3 * PACKET * layer.packets()];
/// let coding = Coding::new(Coder::new(layer), LayerName::A)?;
/// let receiving = Receiving::new(Receiver::new(layer), LayerName::A)?;
/// let carriers = FrameReader::new(coding, &stream[..]);
/// let mut came = Vec::new();
/// FrameReader::new(receiving, carriers).read_to_end(&mut came)?;
/// assert_eq!(came, stream[..stream.len() - 12 * PACKET]);
/// # Ok::<(), Box<dyn std::error::Error>>(())
/// ```
///
/// A frame that is refused is an error of the kind `InvalidData` that holds the [`Refusal`], and a stream that ends within a frame
/// one of the kind `UnexpectedEof`.
#[derive(Debug)]
pub struct FrameReader<F, R> {
    frames: F,
    from: R,
    frame: Vec<u8>,
    given: Vec<u8>,
    place: usize,
}

impl<F: Frames, R: Read> FrameReader<F, R> {
    /// What is read from there, by frames.
    pub fn new(frames: F, from: R) -> FrameReader<F, R> {
        FrameReader {
            frames,
            from,
            frame: Vec::new(),
            given: Vec::new(),
            place: 0,
        }
    }

    /// What it was made of. Bytes that came out of a frame and were not read are gone.
    pub fn into_parts(self) -> (F, R) {
        (self.frames, self.from)
    }

    /// Takes the next frame, if there is one. What has been read of a frame before an error is kept for the next call.
    fn next(&mut self) -> io::Result<bool> {
        let length = self.frames.length();
        let wanted = length - self.frame.len();
        let mut rest = Read::by_ref(&mut self.from).take(wanted as u64);
        rest.read_to_end(&mut self.frame)?;
        match self.frame.len() {
            0 => return Ok(false),
            have if have < length => return Err(cut(have, length)),
            _ => {}
        }
        self.given.clear();
        self.place = 0;
        let taken = self.frames.take(&self.frame, &mut self.given);
        self.frame.clear();
        taken.map(|()| true).map_err(bad)
    }
}

impl<F: Frames, R: Read> Read for FrameReader<F, R> {
    fn read(&mut self, out: &mut [u8]) -> io::Result<usize> {
        // a frame may give nothing: the first one of a small layer does
        while self.place == self.given.len() {
            if out.is_empty() || !self.next()? {
                return Ok(0);
            }
        }
        let count = (&self.given[self.place..]).read(out)?;
        self.place += count;
        Ok(count)
    }
}

/// Takes bytes as they are written, and writes what comes out of each whole frame to another writer.
///
/// ```
/// use std::io::Write;
/// use warintaya::{Coder, Coding, FrameWriter, Layer, LayerName, PACKET};
///
/// let layer = Layer::new(1, 2, 1, 1)?;
/// let coding = Coding::new(Coder::new(layer), LayerName::A)?;
/// let mut writer = FrameWriter::new(coding, Vec::new());
/// for _ in 0..layer.packets() {
///     writer.write_all(&[0x47; PACKET])?;
/// }
/// let (coding, carriers) = writer.finish()?;
/// assert_eq!(carriers.len(), layer.carriers());
/// let record = coding.into_coder().record().to_vec(); // to go on from
/// # Ok::<(), Box<dyn std::error::Error>>(())
/// ```
///
/// A frame that is refused is an error of the kind `InvalidData` that holds the [`Refusal`], and it is left out.
#[derive(Debug)]
pub struct FrameWriter<F, W> {
    frames: F,
    to: W,
    frame: Vec<u8>,
}

impl<F: Frames, W: Write> FrameWriter<F, W> {
    /// What is written goes there, by frames.
    pub fn new(frames: F, to: W) -> FrameWriter<F, W> {
        FrameWriter {
            frames,
            to,
            frame: Vec::new(),
        }
    }

    /// Ends the stream, and gives back what it was made of.
    ///
    /// # Errors
    ///
    /// Of the kind `UnexpectedEof` if the stream ends within a frame, and those of the other writer.
    pub fn finish(mut self) -> io::Result<(F, W)> {
        match self.frame.len() {
            0 => self.to.flush().map(|()| (self.frames, self.to)),
            have => Err(cut(have, self.frames.length())),
        }
    }
}

impl<F: Frames, W: Write> Write for FrameWriter<F, W> {
    fn write(&mut self, bytes: &[u8]) -> io::Result<usize> {
        let wanted = self.frames.length() - self.frame.len();
        let count = wanted.min(bytes.len());
        self.frame.extend(&bytes[..count]);
        if count == wanted {
            let mut out = Vec::new();
            let taken = self.frames.take(&self.frame, &mut out);
            self.frame.clear();
            taken.map_err(bad)?;
            self.to.write_all(&out)?;
        }
        Ok(count)
    }

    /// What has come out of whole frames goes on.
    fn flush(&mut self) -> io::Result<()> {
        self.to.flush()
    }
}
