//! Files that take their place when they are whole.

use std::ffi::OsString;
use std::fs::{self, File};
use std::io::{self, ErrorKind, Write};
use std::path::{Path, PathBuf};

use crate::failure::{Failure, Outcome};
use crate::places::place;

/// A file that is written beside the one it is to replace, and takes its place when it is whole. Given up, it is removed.
pub struct NewFile {
    pub file: File,
    beside: PathBuf,
    target: PathBuf,
    placed: bool,
}

/// How many names are tried where others have taken them.
const NAMES: usize = 100;

/// Makes a file beside a place, under a name that nothing has: neither a file nor a link is taken for it.
fn make_beside(target: &Path) -> io::Result<(File, PathBuf)> {
    let name = target.file_name().ok_or(ErrorKind::InvalidInput)?;
    let mut first = OsString::from(".");
    first.push(name);
    first.push(format!(".{}", std::process::id()));
    for number in 0..NAMES {
        let mut name = first.clone();
        if number > 0 {
            name.push(format!(".{number}"));
        }
        let beside = target.with_file_name(name);
        let made = fs::OpenOptions::new()
            .write(true)
            .create_new(true)
            .open(&beside);
        match made {
            Err(why) if why.kind() == ErrorKind::AlreadyExists => {}
            made => return made.map(|file| (file, beside)),
        }
    }
    Err(ErrorKind::AlreadyExists.into())
}

impl NewFile {
    pub fn create(path: &Path) -> Outcome<NewFile> {
        let target = place(path);
        let made = make_beside(&target);
        let (file, beside) = made.map_err(|why| Failure::file(path, "written", why))?;
        if let Ok(about) = fs::metadata(&target) {
            let _ = file.set_permissions(about.permissions());
        }
        Ok(NewFile {
            file,
            beside,
            target,
            placed: false,
        })
    }

    /// One that is written already, and waits to take its place.
    pub fn with(path: &Path, bytes: &[u8]) -> Outcome<NewFile> {
        let mut new = NewFile::create(path)?;
        let written = new.file.write_all(bytes);
        written.map_err(|why| Failure::file(path, "written", why))?;
        Ok(new)
    }

    /// The place that it is to take.
    pub fn target(&self) -> &Path {
        &self.target
    }

    /// All is written, and on the disk.
    pub fn settle(&self) -> Outcome {
        let synced = self.file.sync_all();
        synced.map_err(|why| Failure::file(&self.target, "written", why))
    }

    /// It takes its place, on the disk too.
    pub fn take_place(mut self) -> Outcome {
        let moved = fs::rename(&self.beside, &self.target);
        moved.map_err(|why| Failure::file(&self.target, "written", why))?;
        self.placed = true;
        if let Some(folder) = self.target.parent() {
            // a file system that can't do this for folders has the file in its place all the same
            let _ = File::open(folder).and_then(|folder| folder.sync_all());
        }
        Ok(())
    }
}

impl Drop for NewFile {
    fn drop(&mut self) {
        if !self.placed {
            let _ = fs::remove_file(&self.beside);
        }
    }
}
