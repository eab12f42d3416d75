//! The record that a run goes on from, and what it leaves of it in the state's file.

use std::ops::Deref;
use std::path::Path;

use warintaya::LayerName;

use crate::failure::{Failure, Outcome};
use crate::json;
use crate::layer_files::outputs;
use crate::lock::{self, Lock};
use crate::new_file::NewFile;
use crate::options::Options;
use crate::places;
use crate::settings::Wanted;
use crate::signals;
use crate::state_file::{agrees, read, Kept};

/// A record in use. Where it is kept in a file, that is locked.
pub struct Held<'a, K> {
    kept: K,
    /// As it was before the run.
    before: Vec<u8>,
    file: Option<(&'a Path, Lock)>,
    /// Whether a run may end behind any frame, and a later one go on from there.
    goes_on: bool,
}

/// The places that a run writes: each has to be one of its own.
fn places_apart(options: &Options) -> Outcome {
    let state = options.path("--state");
    let lock = state.map(lock::path_of);
    let outputs = outputs(options)?.into_iter();
    let others = state.into_iter().chain(json::path(options));
    places::apart(outputs.chain(others).chain(lock.as_deref()))
}

/// A record is kept between frames only where the frames are out already.
fn keep_every_fits(options: &Options) -> Outcome {
    if options.count("--keep-every")?.is_none() {
        return Ok(());
    }
    if !options.has("--state") {
        let what = "--keep-every needs --state FILE";
        return Err(Failure::Usage(what.to_string()));
    }
    let mut outputs = outputs(options)?.into_iter();
    match outputs.find(|path| !places::direct(path)) {
        Some(file) => Err(Failure::Usage(format!(
            "--keep-every is for standard output, pipes and devices, and {} is a file, which takes its place only at the end",
            file.display()
        ))),
        None => Ok(()),
    }
}

/// Locks the state's file, if there is one.
fn lock<'a>(command: &str, options: &'a Options) -> Outcome<Option<(&'a Path, Lock)>> {
    places_apart(options)?;
    keep_every_fits(options)?;
    let path = match options.path("--state") {
        Some(path) => path,
        None => return Ok(None),
    };
    places::keepable(path)?;
    Ok(Some((path, Lock::take(path, command)?)))
}

impl<'a, K: Kept> Held<'a, K> {
    fn new(kept: K, file: Option<(&'a Path, Lock)>, goes_on: bool) -> Held<'a, K> {
        if goes_on {
            signals::keep_frames_whole();
        }
        Held {
            before: kept.record().to_vec(),
            kept,
            file,
            goes_on,
        }
    }

    /// What a run begins with: the record kept in the state's file, or a start by the settings.
    pub fn begin(command: &str, options: &'a Options, wanted: &Wanted) -> Outcome<Held<'a, K>> {
        let file = lock(command, options)?;
        let kept = match &file {
            Some((path, _)) => read::<K>(path)?,
            None => None,
        };
        let kept = match (kept, options.path("--state")) {
            (Some(kept), Some(path)) => {
                agrees(path, kept.station(), wanted)?;
                kept
            }
            _ => K::started(wanted.station()?),
        };
        let goes_on = file.is_some();
        Ok(Held::new(kept, file, goes_on))
    }

    /// A record that has to be there, and that is changed as a whole or not at all.
    pub fn resume(command: &str, options: &'a Options) -> Outcome<Held<'a, K>> {
        let path = options.needed_path("--state")?;
        let file = lock(command, options)?;
        match read::<K>(path)? {
            Some(kept) => Ok(Held::new(kept, file, false)),
            None => Err(Failure::Refused(format!("there is no {}", path.display()))),
        }
    }

    /// The state's file, if there is one.
    pub fn path(&self) -> Option<&'a Path> {
        self.file.as_ref().map(|(path, _)| *path)
    }

    /// Whether a later run can go on behind any frame of this one.
    pub fn goes_on(&self) -> bool {
        self.goes_on
    }

    /// What a frame is done with.
    pub fn kept(&mut self) -> &mut K {
        &mut self.kept
    }

    /// Takes back a frame of a layer that didn't go out.
    pub fn take_back(&mut self, layer: LayerName, part: &[u8]) {
        // it is a part of a good record, and so it is never refused
        if let Ok(kept) = self.kept.with_part(layer, part) {
            self.kept = kept;
        }
    }

    /// Keeps the record in the state's file.
    pub fn keep(&self) -> Outcome {
        self.keep_record(self.kept.record())
    }

    /// Keeps the parts of some layers, and those of the others as they were before the run.
    pub fn keep_parts(&self, layers: &[LayerName]) -> Outcome {
        let mut kept = K::from_record(&self.before)?;
        for layer in layers {
            kept = kept.with_part(*layer, self.kept.part(*layer))?;
        }
        self.keep_record(kept.record())
    }

    fn keep_record(&self, record: &[u8]) -> Outcome {
        if let Some(path) = self.path() {
            let new = NewFile::with(path, record)?;
            new.settle()?;
            new.take_place()?;
        }
        Ok(())
    }
}

impl<K> Deref for Held<'_, K> {
    type Target = K;
    fn deref(&self) -> &K {
        &self.kept
    }
}
