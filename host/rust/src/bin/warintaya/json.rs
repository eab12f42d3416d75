//! `--json FILE`: a line for each frame that was received.

use std::fs::File;
use std::path::Path;

use warintaya::{Layer, LayerName};

use crate::counts::Counts;
use crate::failure::{Failure, Outcome};
use crate::files::Output;
use crate::options::Options;
use crate::places;
use crate::sent::Sent;

/// The file that lines go to, if it is not standard output.
pub fn path(options: &Options) -> Option<&Path> {
    options
        .path("--json")
        .filter(|path| *path != Path::new("-"))
}

/// It is written as it goes, so that it can't be one of the inputs, and has to be one that can be written.
pub fn apart<'a>(options: &Options, mut inputs: impl Iterator<Item = &'a Path>) -> Outcome {
    let path = match path(options) {
        Some(path) if !places::direct(path) => path,
        _ => return Ok(()),
    };
    let place = places::place(path);
    if inputs.any(|input| places::place(input) == place) {
        let name = path.display();
        let what = format!("{name} is to be read and to be written");
        return Err(Failure::Usage(what));
    }
    places::writable(path)
}

/// Where the lines go.
pub struct Lines(Output);

impl Lines {
    /// A file anew, a pipe, or standard output.
    pub fn open(options: &Options) -> Outcome<Option<Lines>> {
        let output = match path(options) {
            Some(path) if !places::direct(path) => {
                let file = File::create(path).map_err(|why| Failure::file(path, "written", why))?;
                Output::Direct(file, path.display().to_string())
            }
            Some(path) => Output::create(Some(path))?,
            None if options.has("--json") => Output::create(None)?,
            None => return Ok(None),
        };
        Ok(Some(Lines(output)))
    }

    /// Whether they go to standard output.
    pub fn standard(&self) -> bool {
        self.0.standard()
    }
}

/// The frames of a layer: each is told one frame late, when it is known what was sent.
pub struct Frames {
    name: LayerName,
    sent: Sent,
    /// The last frame's number, and what its call gave.
    last: Option<(usize, Counts)>,
}

impl Frames {
    pub fn new(name: LayerName, layer: Layer) -> Frames {
        Frames {
            name,
            sent: Sent::new(layer),
            last: None,
        }
    }

    /// Takes a frame: its carriers, the slots that came with it, and what was counted of them. Tells of the one before.
    pub fn frame(
        &mut self,
        lines: &mut Lines,
        number: usize,
        carriers: &[u8],
        slots: &[u8],
        counts: Counts,
    ) -> Outcome {
        let wrong_bits = self.sent.frame(carriers, slots)?;
        self.line(lines, wrong_bits)?;
        self.last = Some((number, counts));
        Ok(())
    }

    /// Tells of the last frame, whose last packets have not come.
    pub fn end(&mut self, lines: &mut Lines) -> Outcome {
        self.line(lines, None)
    }

    fn line(&mut self, lines: &mut Lines, wrong_bits: Option<u64>) -> Outcome {
        let (number, counts) = match self.last.take() {
            Some(last) => last,
            None => return Ok(()),
        };
        let (name, counted) = (self.name, counts.json());
        let wrong_bits = wrong_bits.map_or("null".to_string(), |bits| bits.to_string());
        lines.0.write(
            format!(
            "{{\"layer\":\"{name}\",\"frame\":{number},{counted},\"wrong_bits\":{wrong_bits}}}\n"
        )
            .as_bytes(),
        )
    }
}
