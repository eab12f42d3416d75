//! Which file is which layer's: `-i B=main.ts` is layer B's, and `-i main.ts` that of the only layer.

use std::ffi::OsStr;
use std::os::unix::ffi::OsStrExt;
use std::path::Path;

use warintaya::{Layer, LayerName, Station};

use crate::failure::{Failure, Outcome};
use crate::options::Options;
use crate::told;

/// A layer of a run, where it is read from and where it is written to; nothing stands for standard input and output.
pub struct Chosen<'a> {
    pub name: LayerName,
    pub layer: Layer,
    pub input: Option<&'a Path>,
    pub output: Option<&'a Path>,
}

/// Layers, as one says it: A, B and C.
pub fn listed(layers: &[(LayerName, Layer)]) -> String {
    let letters: Vec<String> = layers.iter().map(|(name, _)| name.to_string()).collect();
    told::listed(&letters)
}

/// The paths that were given to an option: for each layer, and without a layer's name.
struct Paths<'a> {
    option: &'static str,
    of_layer: [Option<&'a Path>; 3],
    plain: Option<&'a Path>,
}

/// The layer in front of a path, if there is one as in `B=main.ts`.
fn cut(value: &OsStr) -> (Option<LayerName>, &Path) {
    match value.as_bytes() {
        [letter, b'=', path @ ..] => match LayerName::from_letter(char::from(*letter)) {
            Some(name) => (Some(name), Path::new(OsStr::from_bytes(path))),
            None => (None, Path::new(value)),
        },
        _ => (None, Path::new(value)),
    }
}

impl<'a> Paths<'a> {
    fn read(options: &'a Options, option: &'static str) -> Outcome<Paths<'a>> {
        let (mut of_layer, mut plain) = ([None; 3], None);
        for value in options.values(option) {
            let (name, path) = cut(value);
            let which = name.map(|name| format!(" {name}")).unwrap_or_default();
            let place = match name {
                Some(name) => &mut of_layer[name.place()],
                None => &mut plain,
            };
            if path == Path::new("") {
                return Err(Failure::Usage(format!("{option}{which} names no file")));
            }
            if place.replace(path).is_some() {
                return Err(Failure::Usage(format!("{option}{which} is given twice")));
            }
        }
        Ok(Paths {
            option,
            of_layer,
            plain,
        })
    }

    /// Refuses a layer that the station doesn't use, or that isn't the one that is meant.
    fn known(&self, station: Station, used: &[(LayerName, Layer)]) -> Outcome {
        for name in LayerName::ALL {
            if self.of_layer[name.place()].is_none() || used.iter().any(|(one, _)| *one == name) {
                continue;
            }
            let option = self.option;
            return Err(match station.layer(name) {
                None => Failure::unused(Some(name)),
                Some(_) => Failure::Usage(format!("{option} {name} is another layer than --layer")),
            });
        }
        Ok(())
    }

    /// The path of a layer, which has to be given unless the layer is alone; nothing for standard input or output.
    fn of(&self, name: LayerName, alone: bool) -> Outcome<Option<&'a Path>> {
        let option = self.option;
        match (self.of_layer[name.place()], self.plain) {
            (Some(_), Some(_)) => Err(Failure::Usage(format!("{option} is given twice"))),
            (None, None) if !alone => {
                Err(Failure::Usage(format!("{option} {name}=FILE is missing")))
            }
            (path, plain) => Ok(path.or(plain).filter(|path| *path != Path::new("-"))),
        }
    }
}

/// The paths of outputs, whichever layer they are for; standard output has none.
pub fn outputs(options: &Options) -> Outcome<Vec<&Path>> {
    let outputs = Paths::read(options, "-o")?;
    let paths = outputs.of_layer.into_iter().chain([outputs.plain]);
    let paths = paths.flatten();
    Ok(paths.filter(|path| *path != Path::new("-")).collect())
}

/// Those of some layers that the files are for: the only one, or those that they name.
fn named(
    inputs: &Paths,
    outputs: &Paths,
    used: &[(LayerName, Layer)],
) -> Outcome<Vec<(LayerName, Layer)>> {
    if used.len() == 1 {
        return Ok(used.to_vec());
    }
    let all = listed(used);
    for paths in [inputs, outputs] {
        if paths.plain.is_some() {
            let option = paths.option;
            let what = format!("{option} names no layer, and layers {all} are used");
            return Err(Failure::Usage(what));
        }
    }
    let has = |name: LayerName| {
        let paths = [inputs, outputs].map(|paths| paths.of_layer[name.place()]);
        paths.iter().any(Option::is_some)
    };
    let used = used.iter().copied();
    let named: Vec<(LayerName, Layer)> = used.filter(|(name, _)| has(*name)).collect();
    match named.is_empty() {
        true => Err(Failure::Usage(format!(
            "layers {all} are used, and -i and -o name none of them"
        ))),
        false => Ok(named),
    }
}

/// The layers of a run, of those of a station that it may be about, and their files.
pub fn chosen<'a>(
    options: &'a Options,
    station: Station,
    used: &[(LayerName, Layer)],
) -> Outcome<Vec<Chosen<'a>>> {
    let (inputs, outputs) = (Paths::read(options, "-i")?, Paths::read(options, "-o")?);
    inputs.known(station, used)?;
    outputs.known(station, used)?;
    let named = named(&inputs, &outputs, used)?;
    let alone = named.len() == 1;
    let mut chosen = Vec::new();
    for (name, layer) in named {
        chosen.push(Chosen {
            name,
            layer,
            input: inputs.of(name, alone)?,
            output: outputs.of(name, alone)?,
        });
    }
    if chosen.iter().filter(|one| one.input.is_none()).count() > 1 {
        let what = "standard input can be one layer's, not two";
        return Err(Failure::Usage(what.to_string()));
    }
    // standard output ends with the command: who reads it would wait for that while the other layers go on
    if !alone && chosen.iter().any(|one| one.output.is_none()) {
        let what = "standard output can be that of a layer alone, not of one beside others";
        return Err(Failure::Usage(what.to_string()));
    }
    Ok(chosen)
}
