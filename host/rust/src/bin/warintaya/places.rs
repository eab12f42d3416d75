//! Where what is written goes: files by their real places, descriptors that paths name, and what can't be written at all.

use std::fs;
use std::io::ErrorKind;
use std::path::{Path, PathBuf};

use crate::failure::{Failure, Outcome};
use crate::system::Standard;

/// How many links are followed from one path.
const LINKS: usize = 40;

/// The system's number for a file system that is mounted to be read only.
const READ_ONLY_SYSTEM: i32 = 30;

/// The folder that a path's last name stands in, without links, and that name.
fn parted(path: &Path) -> Option<(PathBuf, &std::ffi::OsStr)> {
    let folder = path.parent().filter(|folder| *folder != Path::new(""));
    let folder = fs::canonicalize(folder.unwrap_or_else(|| Path::new("."))).ok()?;
    path.file_name().map(|name| (folder, name))
}

/// The place that a path leads to, also through a link to a file that isn't there yet: a link stays, and what it points to is
/// written.
pub fn place(path: &Path) -> PathBuf {
    let mut path = path.to_path_buf();
    for _ in 0..LINKS {
        if let Ok(place) = fs::canonicalize(&path) {
            return place;
        }
        let (folder, here) = match parted(&path) {
            Some((folder, name)) => (folder.clone(), folder.join(name)),
            None => return path,
        };
        path = match fs::read_link(&here) {
            Ok(link) => folder.join(link),
            Err(_) => return here,
        };
    }
    path
}

/// The number of the descriptor of this process that a path names, as /dev/stdout and /dev/fd/3 do.
fn descriptor(path: &Path) -> Option<usize> {
    let descriptors = fs::canonicalize("/proc/self/fd").ok()?;
    let mut path = path.to_path_buf();
    for _ in 0..LINKS {
        let (folder, name) = parted(&path)?;
        if folder == descriptors {
            return name.to_str()?.parse().ok();
        }
        path = folder.join(fs::read_link(folder.join(name)).ok()?);
    }
    None
}

/// Whether a path names a standard stream, as /dev/stdout does.
pub fn names(path: &Path, stream: Standard) -> bool {
    descriptor(path) == Some(stream as usize)
}

/// Whether what is written to a path goes out at once: to standard output, a pipe or a device. A file is replaced at the end.
pub fn direct(path: &Path) -> bool {
    let special = fs::metadata(path).map_or(false, |about| !about.is_file());
    special || names(path, Standard::Output)
}

/// Places that are to be written are not the same one.
pub fn apart<'a>(paths: impl Iterator<Item = &'a Path>) -> Outcome {
    let mut places = Vec::new();
    for path in paths.filter(|path| !direct(path)) {
        let place = place(path);
        if places.contains(&place) {
            let name = path.display();
            return Err(Failure::Usage(format!("{name} is to be written twice")));
        }
        places.push(place);
    }
    Ok(())
}

/// Refuses what can't be written, before anything is read: a folder, a file that is to be read only, one that stands open.
pub fn writable(path: &Path) -> Outcome {
    let refused = |why: &str| Err(Failure::file(path, "written", why));
    let about = match fs::metadata(path) {
        Ok(about) => about,
        // it is to be made, which is tried before anything is read as well
        Err(_) => return Ok(()),
    };
    if about.is_dir() {
        return refused("it is a folder");
    }
    if direct(path) {
        return Ok(());
    }
    if descriptor(path).is_some() {
        return refused("it is a file that stands open; name the file itself");
    }
    if about.permissions().readonly() {
        return refused("it is read-only");
    }
    match fs::OpenOptions::new().write(true).open(path) {
        Ok(_) => Ok(()),
        Err(why) if why.kind() == ErrorKind::PermissionDenied => refused("it is read-only"),
        Err(why) if why.raw_os_error() == Some(READ_ONLY_SYSTEM) => refused("it is read-only"),
        Err(why) => Err(Failure::file(path, "written", why)),
    }
}

/// The same for a file that is kept between runs, which a pipe or a device can't be.
pub fn keepable(path: &Path) -> Outcome {
    writable(path)?;
    match direct(path) {
        true => Err(Failure::file(path, "kept", "it is no file of its own")),
        false => Ok(()),
    }
}
